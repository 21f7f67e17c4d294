//! The five changes, against the independent reader: the same answers, the same bytes.

mod common;

use std::fs;
use std::path::Path;

use common::locked::lock_some;
use common::{raw_stamp, Folder, Outcome, USUAL, USUAL_LISTED};
use reader::build::requests::random_change;
use reader::build::{self, random, scribble};
use reader::rng::Rng;
use reader::Format::{Plain, Raw};
use reader::{Change, Format, Refusal};

/// Makes a change by the command, the bytes from a file or from standard input.
fn make(folder: &Folder, change: &Change, by_input: bool) -> Outcome {
    let timed = |name: &str, path: &[u8], time: &[u8; 8], data: Option<&[u8]>| {
        let stamp = raw_stamp(time);
        let mut words: Vec<&[u8]> = vec![name.as_bytes(), b"--stamp", stamp.as_bytes(), b"card", path];
        if let Some(data) = data {
            folder.write("file", data);
            words.push(if by_input { b"-" } else { b"file" });
        }
        folder.feed(&words, data.unwrap_or(b""))
    };
    match change {
        Change::Create { path, time, data } => timed("create", path, time, Some(data)),
        Change::Replace { path, time, data } => timed("replace", path, time, Some(data)),
        Change::MakeDir { path, time } => timed("mkdir", path, time, None),
        Change::Delete { path } => folder.feed(&[b"delete", b"card", path], b""),
        Change::RemoveDir { path } => folder.feed(&[b"rmdir", b"card", path], b""),
    }
}

#[test]
fn random_changes() {
    Format::BOTH.into_iter().for_each(random_changes_of);
}

fn random_changes_of(format: Format) {
    let folder = Folder::of(format);
    let mut seen = [0; 17];
    for seed in 0..50 {
        let mut rng = Rng::new(seed);
        let mut image = random::random(format, seed).image;
        lock_some(format, &mut image, &mut rng, if seed % 2 == 0 { 0 } else { 3 });
        folder.write("card", &image);
        for _ in 0..12 {
            let tree = reader::tree(format, &image).expect("an accepted card");
            let change = random_change(&mut rng, &tree);
            let given = make(&folder, &change, rng.chance(1, 2));
            match change.apply(format, &mut image) {
                Ok(()) => drop((given.done(), seen[0] += 1)),
                Err(refusal) => {
                    seen[usize::from(refusal.number)] += 1;
                    given.refused(refusal);
                }
            }
            assert!(folder.read("card") == image, "{format:?}, seed {seed}: {change:?}");
        }
    }
    println!("{format:?}: done, and refused with 1 to 16: {seen:?}");
    assert!(seen[0] > 100 && [8, 9, 10, 11, 12, 13, 14, 16].iter().all(|&number| seen[number] > 0), "{seen:?}");
}

/// Refusals leave the very file, not only its bytes; nothing is left beside it.
#[test]
fn refusals() {
    Format::BOTH.into_iter().for_each(refusals_of);
}

fn refusals_of(format: Format) {
    let folder = Folder::of(format);
    let mut image = build::bench(format);
    let time = build::usual_time();
    reader::make_dir(format, &mut image, b"/d", &time).expect("room");
    reader::create(format, &mut image, b"/d/f", &time, b"bytes").expect("room");
    folder.write("card", &image);
    folder.write("file", &[1; 30 * 1024]);
    let was = fs::metadata(folder.path("card")).expect("there");
    let refusals: [(&[&str], u8); 16] = [
        (&["create", "card", "/", "file"], 8),
        (&["create", "card", "x", "file"], 8),
        (&["mkdir", "card", "/a/b/c/d/e/f/g/h"], 8),
        (&["rmdir", "card", "/"], 8),
        (&["mkdir", "card", "/x", "--stamp", "2100-02-29T00:00:00"], 14),
        (&["create", "card", "/x", "file", "--stamp", "1979-12-31T23:59:59"], 14),
        (&["replace", "card", "/d/f", "file", "--stamp=0x0100000001010000"], 14),
        (&["delete", "card", "/x"], 9),
        (&["create", "card", "/x/y", "file"], 9),
        (&["delete", "card", "/d"], 10),
        (&["rmdir", "card", "/d/f"], 10),
        (&["create", "card", "/d/f/x", "file"], 10),
        (&["mkdir", "card", "/d"], 11),
        (&["rmdir", "card", "/d"], 13),
        (&["create", "card", "/x", "file"], 12),
        (&["replace", "card", "/d/f", "file"], 12),
    ];
    for (words, number) in refusals {
        folder.run(words).refused(Refusal::number(number));
    }
    let now = fs::metadata(folder.path("card")).expect("there");
    assert_eq!(was.modified().expect("a time"), now.modified().expect("a time"));
    assert_eq!((folder.read("card"), folder.names()), (image, vec!["card".to_string(), "file".to_string()]));
}

/// An unreadable page that the check needs, and one that only a read needs.
#[test]
fn unreadable_pages() {
    let folder = Folder::new();
    let mut image = build::bench(Raw);
    reader::create(Raw, &mut image, b"/f", &build::usual_time(), &[5; 2000]).expect("room");
    scribble::break_page(Raw, &mut image, 2 * (10 + 2) + 1);
    folder.write("card", &image);
    folder.run(&["check", "card"]).done();
    folder.run(&["read", "card", "/f"]).refused(Refusal::unreadable(25));
    folder.run(&["get", "card", "/f", "out"]).refused(Refusal::unreadable(25));
    folder.run(&["get", "card", "/", "out"]).refused(Refusal::unreadable(25));
    assert_eq!(folder.run(&["read", "card", "/f", "0", "512"]).done(), vec![5; 512]);
    scribble::break_page(Raw, &mut image, 2 * 10 + 1);
    folder.write("card", &image);
    folder.run(&["delete", "card", "/f"]).refused(Refusal::unreadable(21));
    assert_eq!((folder.read("card"), folder.names()), (image, vec!["card".to_string()]));
}

/// No page of a plain card is unreadable: the same damage is other bytes there.
#[test]
fn other_bytes() {
    let folder = Folder::of(Plain);
    let mut image = build::bench(Plain);
    reader::create(Plain, &mut image, b"/f", &build::usual_time(), &[5; 2000]).expect("room");
    scribble::break_page(Plain, &mut image, 2 * (10 + 2) + 1);
    folder.write("card", &image);
    let bytes = folder.run(&["read", "card", "/f"]).done();
    assert_eq!(bytes, image[512 * 2 * (10 + 2)..][..2000]);
    assert_ne!(bytes, [5; 2000]);
}

/// The figures of document 01 for the bench card, which are the same without spare bytes.
#[test]
fn bench_card() {
    Format::BOTH.into_iter().for_each(bench_card_of);
}

fn bench_card_of(format: Format) {
    let folder = Folder::of(format);
    folder.write("card", &build::bench(format));
    folder.write("fits", &[9; 28_672]);
    folder.write("more", &[9; 28_673]);
    for _ in 0..2 {
        folder.run(&["create", "card", "/A", "more"]).refused(Refusal::number(12));
        folder.run(&["create", "card", "/A", "fits"]).done();
        folder.run(&["delete", "card", "/A"]).done();
    }
    folder.write("card", &build::bench(format));
    folder.write("save", &[1; 1500]);
    folder.run(&["mkdir", "card", "/SAVE", "--stamp", USUAL]).done();
    folder.run(&["create", "card", "/SAVE/A", "save", "--stamp", USUAL]).done();
    let counts = "card 56\nfree 24\nreached 6\norphaned 0\nheld 0\nmended 0\n";
    let entries = "d 3 /SAVE 2000-02-29 12:34:56\nf 1500 /SAVE/A 2000-02-29 12:34:56\n";
    assert_eq!(folder.run(&["list", "card"]).text(), format!("{counts}{entries}"));
}

/// Without --stamp the time is now in Japan.
#[test]
fn time_now() {
    let folder = Folder::new();
    folder.write("card", &build::bench(Raw));
    let before = ps2card::Stamp::now().to_string();
    folder.run(&["mkdir", "card", "/d"]).done();
    let after = ps2card::Stamp::now().to_string();
    let found = folder.run(&["find", "card", "/d"]).text();
    let created = found.lines().find_map(|line| line.strip_prefix("created ")).expect("a line");
    assert!((before.as_str()..=after.as_str()).contains(&created), "{before} {created} {after}");
}

/// Paths are bytes: those that are no text are refused as the rules say, and never changed on the way.
#[test]
fn paths_are_bytes() {
    let folder = Folder::new();
    folder.write("card", &build::bench(Raw));
    let outcome = folder.feed(&[b"mkdir", b"card", b"/\xC3\xA9"], b"");
    outcome.refused(Refusal::number(8));
    folder.feed(&[b"find", b"card", b"/\xFF"], b"").refused(Refusal::number(8));
    folder.feed(&[b"mkdir", b"--stamp", USUAL.as_bytes(), b"--", b"card", b"/-x \"y\""], b"").done();
    assert!(folder.run(&["list", "card"]).text().ends_with(&format!("d 2 /-x \"y\" {USUAL_LISTED}\n")));
}

/// A file of any length may be handed in: what no card can hold is 12.
#[test]
fn endless_file() {
    let folder = Folder::new();
    folder.write("card", &build::bench(Raw));
    if Path::new("/dev/zero").exists() {
        folder.run(&["create", "card", "/A", "/dev/zero"]).refused(Refusal::number(12));
    }
    folder.run(&["create", "card", "/A", "none"]).failed(3, "cannot read none");
    folder.run(&["create", "none", "/A", "card"]).failed(3, "cannot change none");
    assert_eq!(folder.read("card"), build::bench(Raw));
}

/// A dated stamp stands in the entry as its eight bytes.
#[test]
fn stamps() {
    let folder = Folder::new();
    let mut image = build::bench(Raw);
    folder.write("card", &image);
    folder.run(&["mkdir", "card", "/d", "--stamp", USUAL]).done();
    reader::make_dir(Raw, &mut image, b"/d", &build::usual_time()).expect("room");
    assert_eq!(folder.read("card"), image);
}
