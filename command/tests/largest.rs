//! The largest card, of 65,536 clusters: filled to its last cluster and emptied, and deep trees in and out again.

mod common;

use std::fs;

use common::{Folder, USUAL};
use reader::build;
use reader::Format::{self, Plain};
use reader::Refusal;

/// What `check` prints of the card.
fn counts(free: usize, reached: usize) -> String {
    format!("card: OK, {free} KB free\ncard 65536\nfree {free}\nreached {reached}\norphaned 0\nheld 0\nmended 0\n")
}

#[test]
fn filled_and_emptied() {
    Format::BOTH.into_iter().for_each(filled_and_emptied_of);
}

fn filled_and_emptied_of(format: Format) {
    let folder = Folder::of(format);
    folder.run(&["new", "card", "65536", "--stamp", USUAL]).done();
    let mut image = folder.read("card");
    // All but the root's first cluster, and the one that it grows by.
    let bytes: Vec<u8> = (0..65_254 * 1024).map(|place| (place / 1024 * 31 + place % 251) as u8).collect();
    folder.write("more", &[&bytes[..], b"x"].concat());
    folder.run(&["create", "card", "/A", "more"]).refused(Refusal::number(12));
    assert!(folder.read("card") == image);
    folder.write("fits", &bytes);
    folder.run(&["create", "card", "/A", "fits", "--stamp", USUAL]).done();
    reader::create(format, &mut image, b"/A", &build::usual_time(), &bytes).expect("room");
    assert!(folder.read("card") == image);
    assert_eq!(folder.run(&["check", "card"]).text(), counts(0, 65_256));
    folder.run(&["mkdir", "card", "/D"]).refused(Refusal::number(12));
    assert!(folder.run(&["read", "card", "/A"]).done() == bytes);
    let end = bytes.len() - 3;
    assert_eq!(folder.run(&["read", "card", "/A", &end.to_string(), "9"]).done(), bytes[end..]);
    let sum = reader::sha256::hex(&bytes);
    assert_eq!(folder.run(&["verify", "card"]).text(), format!("{sum}  A\n"));
    folder.run(&["rm", "card", "/A"]).done();
    assert_eq!(folder.run(&["check", "card"]).text(), counts(65_254, 2));
}

/// A host folder with directories as deep as they go and a file on every level.
fn grow(folder: &Folder, save: &str) -> usize {
    let mut path = save.to_string();
    for level in 1..=7 {
        fs::create_dir(folder.path(&path)).expect("a folder");
        let bytes = vec![level as u8; level * level * 1_111];
        folder.write(&format!("{path}/file of {save}"), &bytes);
        path += &format!("/{level}{}", "n".repeat(30));
    }
    7
}

#[test]
fn deep_trees() {
    let folders = Format::BOTH.map(|format| (format, Folder::of(format)));
    for (format, folder) in &folders {
        let files = grow(folder, "ONE") + grow(folder, "TWO");
        for (card, saves) in [("card", ["ONE", "TWO"]), ("other", ["TWO", "ONE"])] {
            folder.run(&["new", card, "65536", "--stamp", USUAL]).done();
            for save in saves {
                folder.run(&["put", card, save, "--stamp", USUAL]).done();
            }
        }
        let image = folder.read("card");
        assert_eq!(folder.run(&["list", "card"]).text(), reader::list(*format, &image, 0));
        assert_eq!(folder.run(&["ls", "card"]).text(), "dir   2 entries  ONE\ndir   2 entries  TWO\n");
        assert_eq!(folder.run(&["verify", "card"]).text().lines().count(), files);
        let same = format!("the same: {files} files, 15 directories\n");
        assert_eq!(folder.run(&["compare", "card", "other"]).text(), same);
        folder.run(&["get", "card", "/", "back"]).done();
        for save in ["ONE", "TWO"] {
            assert!(folder.tool("diff", &["-r", save, &format!("back/{save}")]).status.success());
        }
        folder.run(&["rm", "-r", "card", "/ONE"]).done();
        let gone = folder.run(&["compare", "card", "other"]);
        assert_eq!((gone.status, gone.out.split(|&byte| byte == b'\n').count()), (1, 15));
    }
    // One format beside the other.
    let [(_, raw), (_, plain)] = &folders;
    let image = plain.read("other");
    assert!(image == common::converted(Plain, &raw.read("other")));
    raw.write("plain", &image);
    let compared = raw.run(&["compare", "other", "plain", "--plain-b"]).text();
    assert_eq!(compared, "the same: 14 files, 15 directories\n");
}
