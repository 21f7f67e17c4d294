//! convert: a card in the other format as a new file, whole or not at all, and never over another.

mod common;

use std::fs;

use common::{converted, Folder};
use reader::build::{self, bad, samples, scribble};
use reader::rng::Rng;
use reader::Format::{Plain, Raw};
use reader::{Format, Refusal};

/// The option for a format that the new file is to have.
fn to(format: Format) -> &'static str {
    match format {
        Raw => "--to-raw",
        Plain => "--to-plain",
    }
}

/// The image that the reader makes of a plain one.
fn raw_of(plain: &[u8]) -> Vec<u8> {
    let mut raw = vec![0; plain.len() / Plain.page_bytes() * Raw.page_bytes()];
    reader::to_raw(plain, &mut raw).expect("a plain image");
    raw
}

/// There and back: the reader's bytes, the image untouched, and cards that compare as the same.
#[test]
fn there_and_back() {
    let folder = Folder::new();
    let mut large = build::standard(Raw);
    reader::create(Raw, &mut large, b"/LARGE", &build::usual_time(), &Rng::new(1).bytes(1_500_000)).expect("room");
    for image in [samples::shop(), large] {
        folder.write("card", &image);
        folder.run(&["convert", "card", "plain", "--to-plain"]).done();
        let plain = folder.read("plain");
        assert!(plain == converted(Plain, &image) && folder.read("card") == image);
        folder.run(&["convert", "--to-raw", "plain", "again"]).done();
        assert!(folder.read("again") == raw_of(&plain) && folder.read("plain") == plain);
        let same = folder.run(&["compare", "card", "plain", "--plain-b"]).text();
        assert!(same.starts_with("the same: "), "{same}");
        assert_eq!(folder.run(&["compare", "plain", "again", "--plain-a"]).text(), same);
        assert_eq!(folder.run(&["verify", "--plain", "plain"]), folder.run(&["verify", "card"]));
        for name in ["plain", "again"] {
            fs::remove_file(folder.path(name)).expect("removed");
        }
    }
    assert_eq!(folder.names(), ["card"]);
}

/// A change of a converted card leaves what the same change of the card leaves, converted.
#[test]
fn changed_alike() {
    let folder = Folder::new();
    folder.write("card", &samples::save());
    folder.write("file", &[7; 3000]);
    folder.run(&["convert", "card", "plain", "--to-plain"]).done();
    let changes: [&[&str]; 4] = [
        &["mkdir", "IMAGE", "/NEW", "--stamp", common::USUAL],
        &["create", "IMAGE", "/NEW/A", "file", "--stamp", common::USUAL],
        &["replace", "IMAGE", "/SAVE/A", "file", "--stamp", common::USUAL],
        &["rm", "-r", "IMAGE", "/SAVE"],
    ];
    for words in changes {
        for (image, option) in [("card", &[][..]), ("plain", &["--plain"])] {
            let words: Vec<&str> = words.iter().map(|&word| if word == "IMAGE" { image } else { word }).collect();
            folder.run(&[&words, option].concat()).done();
        }
        assert!(folder.read("plain") == converted(Plain, &folder.read("card")), "{words:?}");
    }
}

/// From standard input, as other commands that only look at an image.
#[test]
fn from_standard_input() {
    let folder = Folder::new();
    let image = samples::save();
    folder.feed(&[b"convert", b"-", b"plain", b"--to-plain"], &image).done();
    assert_eq!(folder.read("plain"), converted(Plain, &image));
    let given = folder.feed(&[b"convert", b"-", b"more", b"--to-plain"], &image[1..]);
    assert!(given.err.ends_with(" (standard input)\n"), "{given:?}");
    given.refused(Refusal::number(1));
    assert_eq!(folder.names(), ["plain"]);
}

/// Never over what is there, be it a file, a folder, the image itself or a link that leads nowhere.
#[test]
fn never_over() {
    let folder = Folder::new();
    let image = samples::save();
    folder.write("card", &image);
    folder.write("file", b"mine");
    fs::create_dir(folder.path("folder")).expect("a folder");
    std::os::unix::fs::symlink("nowhere", folder.path("link")).expect("a link");
    for name in ["file", "folder", "card", "link"] {
        let words = ["convert", "card", name, "--to-plain"];
        folder.run(&words).failed(3, &format!("cannot make {name}: File exists"));
        folder.run_failing("rename", &words).failed(3, &format!("cannot make {name}: File exists"));
    }
    folder.run(&["convert", "card", "none/made", "--to-plain"]).failed(3, "cannot make none/made");
    folder.run(&["convert", "none", "made", "--to-plain"]).failed(3, "cannot read none");
    folder.run_failing("rename", &["convert", "card", "made", "--to-plain"]).done();
    assert_eq!(folder.read("made"), converted(Plain, &image));
    assert_eq!((folder.read("card"), folder.read("file")), (image, b"mine".to_vec()));
    assert_eq!(folder.names(), [".shim.so", "card", "file", "folder", "link", "made"]);
}

/// Many at once to one name: one makes it, whole, and the others are told.
#[test]
fn one_of_many() {
    let folder = Folder::new();
    let image = build::standard(Raw);
    folder.write("card", &image);
    let words: [&[u8]; 4] = [b"convert", b"card", b"same", b"--to-plain"];
    let mut children: Vec<_> = (0..8).map(|_| folder.start(&words)).collect();
    let mut statuses: Vec<_> = children.iter_mut().map(|child| child.wait().expect("an end").code()).collect();
    statuses.sort();
    assert_eq!(statuses, [0, 3, 3, 3, 3, 3, 3, 3].map(Some));
    assert!(folder.read("same") == converted(Plain, &image));
    assert_eq!(folder.names(), ["card", "same"]);
}

/// An unreadable page anywhere is refused, the lowest first, and nothing is made; one wrong bit in a chunk is corrected.
#[test]
fn unreadable_pages() {
    let folder = Folder::new();
    let sound = samples::save();
    let mut image = sound.clone();
    scribble::flip(Raw, &mut image, 3, 1, 500);
    scribble::flip(Raw, &mut image, 28, 2, 1030);
    folder.write("card", &image);
    folder.run(&["convert", "card", "made", "--to-plain"]).done();
    assert!(folder.read("made") == converted(Plain, &sound) && folder.read("card") == image);
    fs::remove_file(folder.path("made")).expect("removed");
    // Page 111 is the last, in a backup block; 28 has bytes of a file; 7 belongs to nothing.
    for page in [111, 28, 7] {
        scribble::break_page(Raw, &mut image, page);
        folder.write("card", &image);
        let given = folder.run(&["convert", "card", "made", "--to-plain"]);
        assert!(given.err.ends_with(" (card)\n"), "{given:?}");
        given.refused(Refusal::unreadable(page));
        assert_eq!((folder.read("card"), folder.names()), (image.clone(), vec!["card".to_string()]));
    }
}

/// A size that is no card's in the format it is taken for is refused with 1; where it is one in the format that it is to
/// get, the line says so.
#[test]
fn wrong_sizes() {
    let folder = Folder::new();
    for format in Format::BOTH {
        let image = build::bench(format);
        let refused = |bytes: &[u8], end: &str| {
            folder.write("card", bytes);
            let given = folder.run(&["convert", "card", "made", to(format)]);
            assert!(given.err.ends_with(end), "{given:?}");
            given.refused(Refusal::number(1));
        };
        let name = if format == Raw { "raw" } else { "plain" };
        refused(&image, &format!("; its size is that of a {name} card already (card)\n"));
        refused(&image[1..], ", 1,024 (card)\n");
        refused(b"", ", 1,024 (card)\n");
    }
    assert_eq!(folder.names(), ["card"]);
}

/// Nothing else is judged: a card that every other command refuses is converted as well.
#[test]
fn refused_cards() {
    let folder = Folder::new();
    let mut numbers = Vec::new();
    for format in Format::BOTH {
        for card in bad::all(format).into_iter().filter(|card| card.refusal.number > 2) {
            folder.write("card", &card.image);
            let given = folder.run(&["convert", "card", "made", to(format.other())]);
            let mut expected = vec![0; card.image.len() / format.page_bytes() * format.other().page_bytes()];
            let converted = match format {
                Raw => reader::to_plain(&card.image, &mut expected),
                Plain => reader::to_raw(&card.image, &mut expected),
            };
            // Some have an unreadable page that the check does not reach.
            if let Err(refusal) = converted {
                given.refused(refusal);
                continue;
            }
            given.done();
            assert!(folder.read("made") == expected, "{}", card.name);
            fs::remove_file(folder.path("made")).expect("removed");
            numbers.push(card.refusal.number);
        }
    }
    assert_eq!(folder.names(), ["card"]);
    assert!((3..=7).all(|number| numbers.contains(&number)), "{numbers:?}");
}

/// The file is done though its folder cannot be synced, and that is told.
#[test]
fn folder_cannot_be_synced() {
    let folder = Folder::new();
    folder.write("card", &samples::save());
    let given = folder.run_failing("folder sync", &["convert", "card", "made", "--to-plain"]);
    assert_eq!((given.status, given.err.matches('\n').count()), (0, 1), "{given:?}");
    assert!(given.err.contains("made is done, but ") && given.err.contains("Input/output error"), "{given:?}");
    assert_eq!(folder.read("made"), converted(Plain, &samples::save()));
}
