//! The images that the listing programs are run on, all of them raw, and what they must print.

use super::{bad, bench, good, stamped, usual_time};
use crate::page::Format::Raw;
use crate::time::stamp;
use crate::{create, make_dir, program};

/// Images and their names.
type Samples = Vec<(&'static str, Vec<u8>)>;

/// One bad card for each refusal 1 to 7, by its name among the bad cards.
const REFUSED: [(&str, &str); 7] = [
    ("refused-1", "one byte short"),
    ("refused-2", "a data bit and a code bit"),
    ("refused-3", "text without its last space"),
    ("refused-4", "backups equal"),
    ("refused-5", "table name equal to the indirect name"),
    ("refused-6", "a file's last word links on"),
    ("refused-7", "a name twice"),
];

const WORN: [(&str, &str); 4] = [
    ("tree", "the sample itself"),
    ("flips", "a flip in every chunk of needed pages"),
    ("worn-files", "data pages of files"),
    ("worn-elsewhere", "free, orphaned and backup pages"),
];

/// The card of document 01's listing: `/SAVE`, and `/SAVE/A` of 1,500 bytes.
pub fn save() -> Vec<u8> {
    let mut image = bench(Raw);
    make_dir(Raw, &mut image, b"/SAVE", &usual_time()).expect("the bench card has room");
    let bytes: Vec<u8> = (0..1500).map(|place| (place % 251) as u8).collect();
    create(Raw, &mut image, b"/SAVE/A", &usual_time(), &bytes).expect("the bench card has room");
    image
}

/// The card in the repository's `samples`: the bench card with three saves of a shop's customer.
pub fn shop() -> Vec<u8> {
    let mut image = bench(Raw);
    let bytes = |count: usize, seed: usize| (0..count).map(|place| (place * seed % 251) as u8).collect::<Vec<u8>>();
    let bought = stamp(2001, 11, 24, 10, 5, 0);
    let played = stamp(2003, 7, 19, 22, 48, 31);
    let saves = [
        (
            "BESLES-00001GARDEN",
            played,
            vec![("icon.sys", bytes(964, 3)), ("garden.ico", bytes(2900, 5)), ("GARDEN", bytes(4096, 7))],
        ),
        ("BESLES-00002RALLY", bought, vec![("icon.sys", bytes(964, 11)), ("RALLY", bytes(1500, 13))]),
        (
            "SAVE",
            usual_time(),
            vec![("A", bytes(1500, 1)), ("note.txt", b"One save of 2000, one of 2001, one of 2003.\n".to_vec())],
        ),
    ];
    for (save, time, files) in saves {
        let save = format!("/{save}");
        make_dir(Raw, &mut image, save.as_bytes(), &time).expect("the bench card has room");
        for (name, bytes) in files {
            create(Raw, &mut image, format!("{save}/{name}").as_bytes(), &time, &bytes)
                .expect("the bench card has room");
        }
    }
    image
}

/// The bench card with a file for each of the telling stamps, valid and invalid.
pub fn times() -> Vec<u8> {
    stamped::stamped(Raw, &[stamped::valid(), stamped::invalid()].concat())
}

/// Every image of the program `cards`, in its order.
pub fn all() -> Samples {
    let mut samples = vec![("bench", bench(Raw)), ("save", save())];
    samples.push(("pcsx2", include_bytes!("../../testdata/bench-sample.ps2").to_vec()));
    let mut good = good::all(Raw);
    for (name, card) in WORN {
        let place = good.iter().position(|good| good.name == card).expect(card);
        samples.push((name, good.swap_remove(place).image));
    }
    let mut bad = bad::all(Raw);
    for (name, card) in REFUSED {
        let place = bad.iter().position(|bad| bad.name == card).expect(card);
        samples.push((name, bad.swap_remove(place).image));
    }
    let mut long = bench(Raw);
    long.push(0);
    samples.push(("long", long));
    samples.push(("times", times()));
    samples
}

/// What the program `cards` prints: each image's name, then its listing.
pub fn printed() -> String {
    all().iter().map(|(name, image)| format!("== {name}\n{}", program(image))).collect()
}
