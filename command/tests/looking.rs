//! The commands that only look, against the independent reader.

mod common;

use std::fs::File;

use common::{mended, Folder};
use reader::build::{self, bad, good, random};
use reader::content::lines;
use reader::Format::{Plain, Raw};
use reader::{Counts, Entry, Format, Refusal};

fn counts(format: Format, image: &[u8]) -> String {
    let Counts { clusters, free, reached, orphaned, held, .. } =
        reader::check(format, image).expect("an accepted card");
    let of_table = format!("free {free}\nreached {reached}\norphaned {orphaned}\nheld {held}\n");
    format!("card: OK, {free} KB free\ncard {clusters}\n{of_table}mended {}\n", mended::in_check(format, image))
}

#[test]
fn check_and_list_accepted_cards() {
    for format in Format::BOTH {
        let folder = Folder::of(format);
        let named = good::all(format).into_iter().map(|card| card.image);
        let drawn = (0..40).map(|seed| random::random(format, seed).image);
        for image in named.chain(drawn).chain([build::standard(format), build::crowded(format)]) {
            folder.write("card", &image);
            assert_eq!(folder.run(&["check", "card"]).text(), counts(format, &image));
            assert_eq!(folder.run(&["list", "card"]).text(), reader::list(format, &image, 0));
        }
    }
}

/// Every command gives a bad card's refusal before its own.
#[test]
fn bad_cards() {
    Format::BOTH.into_iter().for_each(bad_cards_of);
}

fn bad_cards_of(format: Format) {
    let folder = Folder::of(format);
    folder.write("file", b"bytes");
    for card in bad::all(format) {
        folder.write("card", &card.image);
        folder.run(&["check", "card"]).refused(card.refusal);
        folder.run(&["list", "card"]).refused(card.refusal);
        folder.run(&["ls", "card", "none"]).refused(card.refusal);
        folder.run(&["find", "card", "none"]).refused(card.refusal);
        folder.run(&["step", "card", "none", "0"]).refused(card.refusal);
        folder.run(&["read", "card", "none"]).refused(card.refusal);
        folder.run(&["get", "card", "/none", "out"]).refused(card.refusal);
        folder.run(&["create", "card", "none", "file"]).refused(card.refusal);
        folder.run(&["rmdir", "card", "none"]).refused(card.refusal);
        assert_eq!(folder.read("card"), card.image);
    }
    assert_eq!(folder.names(), ["card", "file"]);
}

/// Lengths around the largest card's, and no bytes at all.
#[test]
fn lengths() {
    for (format, cluster) in [(Raw, 1056), (Plain, 1024)] {
        let folder = Folder::of(format);
        let most = 65_536 * cluster;
        let wrong = [0, 1, cluster, 8_192 * cluster - 1, 8_193 * cluster, most - 1, most + 1, most + cluster, 3 * most];
        for length in wrong {
            // The start of a card, and zeros that take no room on the disk.
            folder.write("card", &build::bench(format));
            let file = File::options().write(true).open(folder.path("card")).expect("a file");
            file.set_len(length as u64).expect("another length");
            folder.run(&["check", "card"]).refused(Refusal::number(1));
        }
        folder.write("card", b"");
        let file = File::options().write(true).open(folder.path("card")).expect("a file");
        file.set_len(most as u64).expect("another length");
        // A page of zeros has other codes, or another text.
        folder.run(&["check", "card"]).refused(if format == Raw { Refusal::unreadable(0) } else { Refusal::number(3) });
    }
}

/// A card of the other format is refused with 1, and the line says what its size is; nothing is guessed. Sizes of
/// neither format, or of both, are not said to be anything.
#[test]
fn the_other_format() {
    let ends = [
        (Raw, "; its size is that of a plain card: say --plain (card)\n"),
        (Plain, "; its size is that of a raw card: leave out --plain (card)\n"),
    ];
    for (format, end) in ends {
        let folder = Folder::of(format);
        let image = build::bench(format.other());
        folder.write("card", &image);
        folder.write("file", b"bytes");
        let runs: [&[&str]; 14] = [
            &["check", "card"],
            &["verify", "card"],
            &["list", "card"],
            &["ls", "card"],
            &["find", "card", "/"],
            &["step", "card", "/", "0"],
            &["read", "card", "/A"],
            &["get", "card", "/", "out"],
            &["put", "card", "file"],
            &["create", "card", "/A", "file"],
            &["replace", "card", "/A", "file"],
            &["delete", "card", "/A"],
            &["mkdir", "card", "/A"],
            &["rmdir", "card", "/A"],
        ];
        for words in runs {
            let given = folder.run(words);
            assert!(given.err.ends_with(end), "{words:?}: {given:?}");
            given.refused(Refusal::number(1));
        }
        assert_eq!((folder.read("card"), folder.names()), (image, vec!["card".to_string(), "file".to_string()]));
        // Of neither format.
        folder.write("card", &[0; 1_000]);
        assert!(folder.run(&["check", "card"]).err.ends_with(", 1,024 (card)\n"));
        // Of both: 256 clusters with spare bytes, 264 without.
        let mut image = build::bench(format.other());
        image.resize(270_336, 0xFF);
        folder.write("card", &image);
        let given = folder.run(&["check", "card"]);
        assert!(!given.err.contains("its size"), "{given:?}");
        given.refused(reader::check(format, &image).expect_err("no sound card"));
    }
}

fn fields(entry: &Entry) -> String {
    let time = |time: &[u8; 8]| {
        let [_, second, minute, hour, day, month, low, high] = *time;
        let year = u16::from_le_bytes([low, high]);
        match reader::time::valid(time) {
            true => format!("{year:04}-{month:02}-{day:02}T{hour:02}:{minute:02}:{second:02}"),
            false => common::raw_stamp(time),
        }
    };
    let named = [
        (0x8000, "exists"),
        (0x10, "file"),
        (0x20, "directory"),
        (1, "read"),
        (2, "write"),
        (4, "execute"),
        (8, "protected"),
        (0x800, "pocketstation"),
        (0x1000, "psx"),
        (0x2000, "hidden"),
    ];
    let bits: Vec<&str> = named.iter().filter(|(bit, _)| entry.mode & bit != 0).map(|(_, name)| *name).collect();
    let locked = if entry.mode & 2 == 0 { "; locked" } else { "" };
    format!(
        "mode 0x{:04x} ({}{locked})\nlength {}\ncreated {}\nmodified {}\nfirst {}\ndir_entry {}\nattribute {}\nname {}\n",
        entry.mode,
        bits.join(", "),
        entry.length,
        time(&entry.created),
        time(&entry.modified),
        entry.first_cluster,
        entry.dir_entry,
        entry.attribute,
        String::from_utf8_lossy(entry.name().expect("a name"))
    )
}

#[test]
fn find_step_and_read_everything() {
    let (invalid, broken) = everything(Raw, 6);
    assert!(invalid > 2 && broken > 0, "{invalid} invalid times, {broken} broken files");
    let (invalid, broken) = everything(Plain, 3);
    assert!(invalid > 0 && broken == 0, "{invalid} invalid times, {broken} broken files");
}

/// All that is on random cards; how many times are invalid, and how many files have an unreadable page.
fn everything(format: Format, cards: u64) -> (usize, usize) {
    let folder = Folder::of(format);
    let (mut invalid, mut broken) = (0, 0);
    for seed in 0..cards {
        let image = random::random(format, seed).image;
        folder.write("card", &image);
        let worn = mended::in_check(format, &image);
        for line in lines(format, &image).expect("an accepted card") {
            let path = std::str::from_utf8(&line.path).expect("names are ASCII");
            let text = folder.run(&["find", "card", path]).mending("card", worn);
            let text = String::from_utf8(text).expect("text");
            assert_eq!(text, fields(&line.entry));
            invalid += usize::from(text.contains("created 0x"));
            if line.item.is_directory {
                steps(format, &folder, &image, path, worn);
                folder.run(&["read", "card", path]).refused(Refusal::number(10));
            } else {
                broken += usize::from(!reads(format, &folder, &image, path, line.entry.length as usize, worn));
                folder.run(&["step", "card", path, "0"]).refused(Refusal::number(10));
            }
        }
    }
    (invalid, broken)
}

/// Every step through a directory; so many chunks are mended in the check.
fn steps(format: Format, folder: &Folder, image: &[u8], path: &str, worn: usize) {
    let mut slot = 0;
    loop {
        let text = folder.run(&["step", "card", path, &slot.to_string()]).mending("card", worn);
        let text = String::from_utf8(text).expect("text");
        match reader::step(format, image, path.as_bytes(), slot).expect("a directory") {
            Some((at, entry)) => {
                let name = String::from_utf8_lossy(entry.name().expect("a name")).into_owned();
                assert_eq!(text, format!("slot {at} {name}\n"));
                slot = at + 1;
            }
            None => break assert_eq!(text, "end\n"),
        }
    }
}

/// A file whole, in part, from its end and from beyond it; false where a page of it is unreadable.
fn reads(format: Format, folder: &Folder, image: &[u8], path: &str, length: usize, worn: usize) -> bool {
    let mut readable = true;
    let worn = |offset: usize, count: usize| worn + mended::in_read(format, image, path.as_bytes(), offset, count);
    for (offset, count) in [(0, length), (length / 2, 7), (length, 5), (length + 1, 1)] {
        let mut bytes = vec![0; count];
        let (from, most) = (offset.to_string(), count.to_string());
        let given = folder.run(&["read", "card", path, &from, &most]);
        match reader::read(format, image, path.as_bytes(), offset, &mut bytes) {
            Ok(count) => assert_eq!(given.mending("card", worn(offset, count)), &bytes[..count]),
            Err(refusal) => {
                readable &= refusal.number != 2;
                given.refused(refusal);
            }
        }
    }
    let mut bytes = vec![0; length];
    match reader::read(format, image, path.as_bytes(), 0, &mut bytes) {
        Ok(_) => assert_eq!(folder.run(&["read", "card", path]).mending("card", worn(0, length)), bytes),
        Err(refusal) => folder.run(&["read", "card", path]).refused(refusal),
    }
    readable
}

#[test]
fn ls_for_people() {
    Format::BOTH.into_iter().for_each(ls_of);
}

fn ls_of(format: Format) {
    let folder = Folder::of(format);
    let mut image = build::bench(format);
    let time = reader::time::stamp(2024, 12, 31, 23, 59, 58);
    reader::make_dir(format, &mut image, b"/SAVE", &time).expect("room");
    reader::create(format, &mut image, b"/SAVE/A B", &build::usual_time(), &[7; 1500]).expect("room");
    reader::create(format, &mut image, b"/note", &build::usual_time(), b"").expect("room");
    folder.write("card", &image);
    let all = "dir   1 entry  SAVE\nfile  0 bytes  note\n";
    assert_eq!(folder.run(&["ls", "card"]).text(), all);
    assert_eq!(folder.run(&["ls", "card", "/"]).text(), all);
    let long = "dir   1 entry  2024-12-31 23:59:58  SAVE\nfile  0 bytes  2000-02-29 12:34:56  note\n";
    assert_eq!(folder.run(&["ls", "-l", "card"]).text(), long);
    assert_eq!(folder.run(&["ls", "card", "/SAVE"]).text(), "file  1500 bytes  A B\n");
    assert_eq!(folder.run(&["ls", "card", "/SAVE/A B"]).text(), "file  1500 bytes  A B\n");
    let save = "file  1500 bytes  2000-02-29 12:34:56  A B\n";
    assert_eq!(folder.run(&["ls", "card", "/SAVE", "-l"]).text(), save);
    assert_eq!(folder.run(&["ls", "card", "/SAVE/A B", "-l"]).text(), save);
    folder.run(&["ls", "card", "/SAVE/B"]).refused(Refusal::number(9));
    folder.run(&["ls", "card", "/SAVE/A B/x"]).refused(Refusal::number(10));
    folder.run(&["ls", "card", "/note/x"]).refused(Refusal::number(10));
    for path in ["SAVE", "", "//", "/SAVE/", "/SAVE/.", "/..", "/note/", "//note"] {
        folder.run(&["ls", "card", path]).refused(Refusal::number(8));
        folder.run(&["ls", "-l", "card", path]).refused(Refusal::number(8));
    }
    folder.run(&["delete", "card", "/SAVE/A B"]).done();
    assert_eq!(folder.run(&["ls", "card", "/SAVE"]).text(), "/SAVE is empty\n");
    folder.write("card", &build::bench(format));
    assert_eq!(folder.run(&["ls", "card", "-l"]).text(), "/ is empty\n");
}
