//! Paths of eight names: directories and files as deep as they go, through every command, and one name more.

mod common;

use std::fs;

use common::{Folder, USUAL, USUAL_LISTED};
use reader::build::{self, directory, file, Assembly, Layout};
use reader::entry::NO_CLUSTER;
use reader::{Format, Refusal};

/// A path of so many names, each of 31 bytes.
fn path(names: usize) -> String {
    (1..=names).map(|number| format!("/{number}{}", "n".repeat(30))).collect()
}

#[test]
fn eight_names() {
    Format::BOTH.into_iter().for_each(eight_names_of);
}

fn eight_names_of(format: Format) {
    let folder = Folder::of(format);
    let (mut image, time) = (build::bench(format), build::usual_time());
    folder.write("card", &image);
    folder.write("file", &[7; 1500]);
    for names in 1..=7 {
        folder.run(&["mkdir", "card", &path(names), "--stamp", USUAL]).done();
        reader::make_dir(format, &mut image, path(names).as_bytes(), &time).expect("room");
    }
    let (deepest, deep, beyond) = (path(7), path(8), path(9));
    assert_eq!(deep.len(), 256);
    folder.run(&["mkdir", "card", &deep]).refused(Refusal::number(8));
    folder.run(&["find", "card", &deep]).refused(Refusal::number(9));
    beyond_eight(&folder, &beyond);
    assert!(folder.read("card") == image);

    folder.run(&["create", "card", &deep, "file", "--stamp", USUAL]).done();
    reader::create(format, &mut image, deep.as_bytes(), &time, &[7; 1500]).expect("room");
    assert!(folder.read("card") == image);
    // With the file there, nine names are malformed all the same, and no file on the way.
    beyond_eight(&folder, &beyond);
    let last = &deep[deepest.len() + 1..];
    let list = folder.run(&["list", "card"]).text();
    assert_eq!(list, reader::list(format, &image, 0));
    let lines = format!("d 3 {deepest} {USUAL_LISTED}\nf 1500 {deep} {USUAL_LISTED}\n");
    assert!(list.ends_with(&lines), "{list}");
    assert_eq!(folder.run(&["ls", "card", &deepest]).text(), format!("file  1500 bytes  {last}\n"));
    assert_eq!(folder.run(&["step", "card", &deepest, "0"]).text(), format!("slot 2 {last}\n"));
    assert!(folder.run(&["find", "card", &deep]).text().ends_with(&format!("\nname {last}\n")));
    assert_eq!(folder.run(&["read", "card", &deep]).done(), [7; 1500]);
    let sum = reader::sha256::hex(&[7; 1500]);
    assert_eq!(folder.run(&["verify", "card"]).text(), format!("{sum}  {}\n", &deep[1..]));
    folder.write("file", b"other bytes");
    folder.run(&["replace", "card", &deep, "file", "--stamp", USUAL]).done();
    reader::replace(format, &mut image, deep.as_bytes(), &time, b"other bytes").expect("room");
    assert!(folder.read("card") == image);
    folder.run(&["get", "card", "/", "out"]).done();
    assert_eq!(folder.read(&format!("out{deep}")), b"other bytes");
    folder.run(&["rmdir", "card", &deepest]).refused(Refusal::number(13));
    folder.run(&["rm", "-r", "card", &path(1)]).done();
    assert_eq!(folder.run(&["ls", "card"]).text(), "/ is empty\n");
}

/// Every command refuses nine names.
fn beyond_eight(folder: &Folder, beyond: &str) {
    let runs: [&[&str]; 11] = [
        &["ls", "card", beyond],
        &["find", "card", beyond],
        &["step", "card", beyond, "0"],
        &["read", "card", beyond],
        &["get", "card", beyond, "out"],
        &["create", "card", beyond, "file"],
        &["replace", "card", beyond, "file"],
        &["delete", "card", beyond],
        &["rm", "-r", "card", beyond],
        &["mkdir", "card", beyond],
        &["rmdir", "card", beyond],
    ];
    runs.into_iter().for_each(|words| folder.run(words).refused(Refusal::number(8)));
}

/// A host tree that is as deep as a card's goes in and comes out; one that is deeper does not go in, at any depth.
#[test]
fn host_trees() {
    let folder = Folder::new();
    let image = build::standard(reader::Format::Raw);
    folder.write("card", &image);
    let folders = "SAVE/2/3/4/5/6/7";
    fs::create_dir_all(folder.path(folders)).expect("folders");
    folder.write(&format!("{folders}/file"), &[1; 5000]);
    folder.write("SAVE/2/3/middle", b"");
    for deeper in ["8", "8/9/10"] {
        let top = folder.path(&format!("{folders}/8"));
        fs::create_dir_all(folder.path(&format!("{folders}/{deeper}"))).expect("folders");
        let given = folder.run(&["put", "card", "SAVE"]);
        assert!(given.err.ends_with(&format!(" (card: /{folders}/8)\n")), "{given:?}");
        given.refused(Refusal::number(8));
        fs::remove_dir_all(top).expect("removed");
    }
    assert!(folder.read("card") == image);
    folder.run(&["put", "card", "SAVE", "--stamp", USUAL]).done();
    folder.run(&["get", "card", "/SAVE", "back"]).done();
    assert!(folder.tool("diff", &["-r", "SAVE", "back"]).status.success());
    folder.run(&["convert", "card", "plain", "--to-plain"]).done();
    assert_eq!(folder.run(&["compare", "card", "plain", "--plain-b"]).text(), "the same: 2 files, 8 directories\n");
    let mut other = folder.read("card");
    let file = format!("/{folders}/file");
    reader::replace(Format::Raw, &mut other, file.as_bytes(), &build::usual_time(), &[2; 10]).expect("room");
    folder.write("other", &other);
    let given = folder.run(&["compare", "card", "other"]);
    assert_eq!((given.status, String::from_utf8_lossy(&given.out).as_ref()), (1, &*format!("bytes 0 {file}\n")));
}

/// A card full of files with paths of 256 bytes: its listing takes half as much room as the card itself.
#[test]
fn long_listing() {
    for format in Format::BOTH {
        let layout = Layout { clusters: 280, alloc_offset: 10, alloc_end: 250, backups: [34, 33], ..Layout::bench() };
        let mut card = Assembly::new(format, layout);
        let name = |level: usize| path(level)[path(level - 1).len() + 1..].to_string();
        for level in 0..7 {
            let length = if level < 6 { 3 } else { 472 };
            card.directory(&[2 * level, 2 * level + 1], 3);
            card.put(2 * level + 1, 0, &directory(name(level + 1).as_bytes(), length, 2 * level as u32 + 2));
        }
        let chain: Vec<usize> = (14..250).collect();
        card.directory(&chain, 472);
        for slot in 2..472 {
            let name = format!("{slot:03}{}", "n".repeat(28));
            card.put(chain[slot / 2], slot % 2, &file(name.as_bytes(), 0, NO_CLUSTER));
        }
        let image = card.finish();
        let card = ps2card::Card::new(common::in_wrapper(format), &image[..]);
        let text = card.list().expect("accepted");
        assert!(text == reader::list(format, &image, 0).as_bytes() && text.len() > 2 * image.len() / 5);
        assert_eq!(card.tree().expect("accepted").iter().filter(|line| line.path.len() == 256).count(), 470);
    }
}

/// A card with directories so many below the root, each inside the one before.
fn nested(format: Format, levels: usize) -> Vec<u8> {
    let mut card = Assembly::new(format, Layout::bench());
    for level in 0..levels {
        let (length, below) = (if level + 1 < levels { 3 } else { 2 }, 2 * level + 2);
        card.directory(&[2 * level, 2 * level + 1], 3);
        card.put(2 * level + 1, 0, &directory(b"D", length, below as u32));
    }
    card.directory(&[2 * levels], 2);
    card.finish()
}

/// Directories lie at most seven below the root: a card with a deeper one is refused with 7.
#[test]
fn deeper_cards() {
    for format in Format::BOTH {
        let folder = Folder::of(format);
        for levels in 1..=7 {
            folder.write("card", &nested(format, levels));
            let (free, reached) = (29 - 2 * levels, 2 * levels + 1);
            let counts = format!("card 56\nfree {free}\nreached {reached}\norphaned 0\nheld 0\nmended 0\n");
            assert_eq!(folder.run(&["check", "card"]).text(), format!("card: OK, {free} KB free\n{counts}"));
        }
        for levels in [8, 9] {
            folder.write("card", &nested(format, levels));
            folder.run(&["check", "card"]).refused(Refusal::number(7));
            folder.run(&["mkdir", "card", "/E"]).refused(Refusal::number(7));
        }
    }
}
