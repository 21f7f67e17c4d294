//! Saves copied out to the host and in from it.

mod common;

use std::fs::{self, File};
use std::os::unix::fs::symlink;

use common::{mended, Folder, Outcome, USUAL};
use reader::build::{self, random, Assembly};
use reader::Format::{Plain, Raw};
use reader::{Format, Piece, Refusal};

/// Every file and directory of a card comes out, byte for byte.
#[test]
fn get_everything() {
    let whole = get_all_of(Raw, 20);
    assert!(whole > 3, "{whole} whole cards");
    assert_eq!(get_all_of(Plain, 10), 10);
}

/// The whole cards among so many; from the others nothing comes out.
fn get_all_of(format: Format, cards: u64) -> usize {
    let folder = Folder::of(format);
    let mut whole = 0;
    for seed in 0..cards {
        let image = random::random(format, seed).image;
        folder.write("card", &image);
        let tree = reader::tree(format, &image).expect("an accepted card");
        let broken = tree.values().flat_map(|item| &item.pieces).any(|piece| matches!(piece, Piece::Unreadable { .. }));
        let given = folder.run(&["get", "card", "/", "out"]);
        if broken {
            assert!(given.status == 1 && given.err.starts_with("refused 2 "), "{given:?}");
            assert_eq!(given.err.matches('\n').count(), 1, "{given:?}");
            assert!(!folder.path("out").exists());
            continue;
        }
        given.mending("card", mended::in_check(format, &image) + mended::in_files(format, &image, |_| true));
        whole += 1;
        let mut files = 0;
        for (path, item) in &tree {
            let path = folder.path("out").join(std::str::from_utf8(&path[1..]).expect("ASCII"));
            match item.is_directory {
                true => assert!(path.is_dir()),
                false => assert_eq!(Some(fs::read(&path).expect("a file")), item.bytes()),
            }
            files += 1;
        }
        assert_eq!(count(&folder, "out"), files);
        fs::remove_dir_all(folder.path("out")).expect("removed");
    }
    whole
}

/// The entries in a host folder, itself and all below.
fn count(folder: &Folder, name: &str) -> usize {
    let mut todo = vec![folder.path(name)];
    let mut count = 0;
    while let Some(path) = todo.pop() {
        count += 1;
        if path.is_dir() {
            todo.extend(fs::read_dir(&path).expect("a folder").map(|entry| entry.expect("an entry").path()));
        }
    }
    count
}

/// One file, to a file and to standard output; never over what is there.
#[test]
fn get_one_file() {
    let folder = Folder::new();
    let mut image = build::bench(Raw);
    reader::create(Raw, &mut image, b"/A", &build::usual_time(), b"a save\n").expect("room");
    reader::make_dir(Raw, &mut image, b"/D", &build::usual_time()).expect("room");
    folder.write("card", &image);
    folder.run(&["get", "card", "/A", "out"]).done();
    assert_eq!(folder.read("out"), b"a save\n");
    assert_eq!(folder.run(&["get", "card", "/A", "-"]).done(), b"a save\n");
    folder.write("out", b"mine");
    folder.run(&["get", "card", "/A", "out"]).failed(3, "cannot write out");
    folder.run(&["get", "card", "/D", "out"]).failed(3, "cannot write out");
    folder.run(&["get", "card", "/A", "none/out"]).failed(3, "cannot write none/out");
    folder.run(&["get", "card", "/B", "new"]).refused(Refusal::number(9));
    assert_eq!((folder.read("out"), folder.names()), (b"mine".to_vec(), vec!["card".to_string(), "out".to_string()]));
}

/// A save goes in as the reader's own creations in the order of the names, and comes out the same.
#[test]
fn put_and_get_back() {
    Format::BOTH.into_iter().for_each(put_and_get_back_of);
}

fn put_and_get_back_of(format: Format) {
    let folder = Folder::of(format);
    folder.write("card", &build::standard(format));
    let mut image = build::standard(format);
    let time = build::usual_time();
    fs::create_dir_all(folder.path("SAVE/deep/er")).expect("folders");
    let files: [(&str, Vec<u8>); 5] = [
        ("SAVE/b", vec![1; 5000]),
        ("SAVE/a a", Vec::new()),
        ("SAVE/Z", (0..=255).cycle().take(1024).collect()),
        ("SAVE/deep/er/x", vec![2; 1025]),
        ("SAVE/deep/.hidden", b"dot".to_vec()),
    ];
    for (name, bytes) in &files {
        folder.write(name, bytes);
    }
    folder.run(&["put", "card", "SAVE/", "--stamp", USUAL]).done();
    for path in
        ["SAVE", "SAVE/Z", "SAVE/a a", "SAVE/b", "SAVE/deep", "SAVE/deep/.hidden", "SAVE/deep/er", "SAVE/deep/er/x"]
    {
        let on_card = format!("/{path}");
        match files.iter().find(|(name, _)| *name == path) {
            Some((_, bytes)) => reader::create(format, &mut image, on_card.as_bytes(), &time, bytes).expect("room"),
            None => reader::make_dir(format, &mut image, on_card.as_bytes(), &time).expect("room"),
        }
    }
    assert!(folder.read("card") == image);
    folder.run(&["get", "card", "/SAVE", "back"]).done();
    for (name, bytes) in &files {
        assert_eq!(&folder.read(&name.replacen("SAVE", "back", 1)), bytes);
    }
    assert_eq!(count(&folder, "back"), count(&folder, "SAVE"));
}

/// A save that does not go in whole does not go in at all.
#[test]
fn put_all_or_nothing() {
    Format::BOTH.into_iter().for_each(put_all_or_nothing_of);
}

fn put_all_or_nothing_of(format: Format) {
    let folder = Folder::of(format);
    let image = build::bench(format);
    folder.write("card", &image);
    fs::create_dir_all(folder.path("SAVE/1/2/3/4/5/6/7")).expect("folders");
    folder.write("SAVE/a", &[1; 10_000]);
    let refused = |number: u8, at: &str| {
        let given = folder.run(&["put", "card", "SAVE"]);
        assert!(given.err.ends_with(&format!(" (card: {at})\n")), "{given:?}");
        given.refused(Refusal::number(number));
        assert_eq!(folder.read("card"), image);
    };
    refused(8, "/SAVE/1/2/3/4/5/6/7");
    fs::remove_dir_all(folder.path("SAVE/1")).expect("removed");
    folder.write("SAVE/z", &[1; 20_000]);
    refused(12, "/SAVE/z");
    folder.write("SAVE/z", b"");
    folder.write("SAVE/what?", b"");
    refused(8, "/SAVE/what?");
    fs::remove_file(folder.path("SAVE/what?")).expect("removed");
    symlink("nowhere", folder.path("SAVE/link")).expect("a link");
    folder.run(&["put", "card", "SAVE"]).failed(3, "SAVE/link");
    fs::remove_file(folder.path("SAVE/link")).expect("removed");
    folder.run(&["put", "card", "SAVE", "--stamp", "2001-02-29T00:00:00"]).refused(Refusal::number(14));
    folder.run(&["put", "card", "none"]).failed(3, "cannot read none");
    assert_eq!(folder.read("card"), image);
    folder.run(&["put", "card", "SAVE"]).done();
    let once = folder.read("card");
    let given = folder.run(&["put", "card", "SAVE"]);
    given.refused(Refusal::number(11));
    assert_eq!((folder.read("card"), folder.names()), (once, vec!["SAVE".to_string(), "card".to_string()]));
}

/// What was made before an error of the host is taken back: the second file's path is too long for it.
#[test]
fn get_taken_back() {
    let folder = Folder::new();
    let mut image = build::bench(Raw);
    reader::create(Raw, &mut image, b"/A", &build::usual_time(), b"a save").expect("room");
    let long = format!("/{}", "B".repeat(31));
    reader::create(Raw, &mut image, long.as_bytes(), &build::usual_time(), b"another").expect("room");
    folder.write("card", &image);
    let above = format!("{}/", "x".repeat(200)).repeat(20);
    let deep = format!("{above}{}/", "z".repeat(40));
    assert!(folder.tool("mkdir", &["-p", &deep]).status.success());
    folder.run(&["get", "card", "/", &format!("{deep}y")]).failed(3, "cannot write");
    let left = folder.tool("find", &[".", "-type", "f", "-o", "-name", "y*", "-o", "-name", ".ps2card*"]);
    assert_eq!(String::from_utf8_lossy(&left.stdout), "./card\n");
    folder.run(&["get", "card", "/A", &format!("{deep}y")]).done();
    folder.run(&["get", "card", "/", &format!("{above}y")]).done();
}

/// A single file goes in under its own name or another; a directory too.
#[test]
fn put_as() {
    let folder = Folder::new();
    let (mut image, time) = (build::bench(Raw), build::usual_time());
    folder.write("card", &image);
    folder.write("note.txt", b"a note");
    fs::create_dir(folder.path("SAVE")).expect("a folder");
    folder.write("SAVE/a", b"in it");
    for words in [&["note.txt"][..], &["note.txt", "--as", "N OTE"], &["SAVE", "--as=S2"], &["./SAVE/."]] {
        folder.run(&[&["put", "card", "--stamp", USUAL], words].concat()).done();
    }
    reader::create(Raw, &mut image, b"/note.txt", &time, b"a note").expect("room");
    reader::create(Raw, &mut image, b"/N OTE", &time, b"a note").expect("room");
    for save in ["/S2", "/SAVE"] {
        reader::make_dir(Raw, &mut image, save.as_bytes(), &time).expect("room");
        reader::create(Raw, &mut image, format!("{save}/a").as_bytes(), &time, b"in it").expect("room");
    }
    assert!(folder.read("card") == image);
    folder.run(&["put", "card", "note.txt"]).refused(Refusal::number(11));
    for name in ["", ".", "..", "a*", "0123456789012345678901234567890x"] {
        folder.run(&["put", "card", "note.txt", "--as", name]).refused(Refusal::number(8));
    }
    assert!(folder.read("card") == image);
}

/// What no card can hold is refused before more than that is read: with memory for a few cards only, a file without an
/// end, a file of a terabyte, and a thousand files of 64 MB.
#[test]
fn put_reads_no_more_than_a_card_holds() {
    let folder = Folder::new();
    let image = Assembly::with_root(Raw, common::largest()).finish();
    folder.write("card", &image);
    let sparse = |name: &str, length: u64| File::create(folder.path(name)).and_then(|file| file.set_len(length));
    sparse("huge", 1 << 40).expect("a sparse file");
    fs::create_dir(folder.path("MANY")).expect("a folder");
    (0..1000).for_each(|number| sparse(&format!("MANY/{number:03}"), 64_000_000).expect("a sparse file"));
    // It would be refused where it is looked at, and it is not.
    assert!(folder.tool("mkfifo", &["MANY/zzz"]).status.success());
    let refused = |source: &str, at: &str| {
        let script = "ulimit -v 600000; exec \"$@\"";
        let words = ["-c", script, "sh", env!("CARGO_BIN_EXE_ps2card"), "put", "card", source, "--as", "X"];
        let given = Outcome::of(folder.tool("sh", &words));
        assert!(given.err.ends_with(&format!(" (card: {at})\n")), "{given:?}");
        given.refused(Refusal::number(12));
    };
    refused("/dev/zero", "/X");
    refused("huge", "/X");
    refused("MANY", "/X/001");
    assert!(folder.read("card") == image && folder.names() == ["MANY", "card", "huge"]);
}
