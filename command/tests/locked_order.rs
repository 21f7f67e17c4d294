//! Refusal 16 among the others, through the wrapper and through the header in C; and what reads a locked card.

#[path = "c/mod.rs"]
mod c;
mod common;

use common::locked::{card, lock, lock_all, lock_dots, set_mode};
use common::{in_wrapper, Folder};
use ps2card::{Card, Refusal, Stamp};
use reader::build;
use reader::build::locks::Which::{Dot, Dots};
use reader::Format::{self, Plain, Raw};

/// A change: its call, whether its time is valid, how many bytes, and its path.
type Change = (&'static str, bool, usize, &'static str);

/// More bytes than the bench card has room for.
const TOO_MUCH: usize = 30 * 1024;

/// Makes a change of a card by the wrapper; the number that it answers. On a refusal the image stays.
fn number(format: Format, image: &[u8], (call, valid, size, path): Change) -> u32 {
    let mut card = Card::new(in_wrapper(format), image.to_vec());
    let time = if valid { Stamp(build::usual_time()) } else { Stamp([1, 0, 0, 0, 0, 0, 0, 0]) };
    let (path, bytes) = (path.as_bytes(), vec![0; size]);
    let done = match call {
        "create" => card.create(path, &time, &bytes),
        "replace" => card.replace(path, &time, &bytes),
        "make_dir" => card.make_dir(path, &time),
        "delete" => card.delete(path),
        "remove_dir" => card.remove_dir(path),
        other => panic!("{other} is no change"),
    };
    assert_eq!(done.is_err(), card.image() == image, "{call} {path:?}");
    assert_eq!(done == Err(Refusal::Locked), done.map_err(Refusal::number) == Err(16));
    done.map_or_else(Refusal::number, |()| 0)
}

/// The same changes by the header, in C.
fn by_header(folder: &Folder, program: &c::Program, format: Format, image: &[u8], changes: &[Change]) -> Vec<u32> {
    folder.write("card", image);
    let line = |(call, valid, size, path): &Change| format!("{call} {} {size} {path}\n", u8::from(*valid));
    folder.write("changes", changes.iter().map(line).collect::<String>().as_bytes());
    let words: &[&str] = if format == Plain { &["--plain", "card", "changes"] } else { &["card", "changes"] };
    let text = program.run(folder, words).text();
    let told = text.lines().map(|line| match line.strip_suffix(" locked") {
        Some(number) => (number.parse().expect("a number"), true),
        None => (line.parse().expect("a number"), false),
    });
    told.map(|(number, locked)| if locked == (number == 16) { number } else { panic!("{text}") }).collect()
}

/// Each change with what it answers where all is locked, and where nothing is.
const CHANGES: [(Change, u32, u32); 44] = [
    (("create", true, 5, "x"), 8, 8),
    (("create", true, 5, "/"), 8, 8),
    (("create", true, 5, "/a/b/c/d/e/f/g/h/i"), 8, 8),
    (("create", false, 5, "/new"), 14, 14),
    (("create", false, 5, "/none/new"), 14, 14),
    (("create", true, 5, "/none/new"), 9, 9),
    (("create", true, 5, "/file/new"), 10, 10),
    (("create", true, 5, "/file"), 11, 11),
    (("create", true, 5, "/D"), 11, 11),
    (("create", true, TOO_MUCH, "/D/file"), 11, 11),
    (("create", true, 5, "/new"), 16, 0),
    (("create", true, 5, "/D/new"), 16, 0),
    (("create", true, TOO_MUCH, "/new"), 16, 12),
    (("create", true, TOO_MUCH, "/D/new"), 16, 12),
    (("replace", true, 5, "/"), 8, 8),
    (("replace", false, 5, "/file"), 14, 14),
    (("replace", true, 5, "/none"), 9, 9),
    (("replace", true, 5, "/none/file"), 9, 9),
    (("replace", true, 5, "/file/x"), 10, 10),
    (("replace", true, 5, "/D"), 10, 10),
    (("replace", true, TOO_MUCH, "/D"), 10, 10),
    (("replace", true, 7, "/file"), 16, 0),
    (("replace", true, 7, "/D/file"), 16, 0),
    (("replace", true, TOO_MUCH, "/file"), 16, 12),
    (("replace", true, TOO_MUCH, "/D/file"), 16, 12),
    (("make_dir", true, 0, "/"), 8, 8),
    (("make_dir", true, 0, "/a/b/c/d/e/f/g/h"), 8, 8),
    (("make_dir", false, 0, "/NEW"), 14, 14),
    (("make_dir", true, 0, "/none/NEW"), 9, 9),
    (("make_dir", true, 0, "/file/NEW"), 10, 10),
    (("make_dir", true, 0, "/D"), 11, 11),
    (("make_dir", true, 0, "/D/file"), 11, 11),
    (("make_dir", true, 0, "/NEW"), 16, 0),
    (("make_dir", true, 0, "/D/NEW"), 16, 0),
    (("delete", true, 0, "file"), 8, 8),
    (("delete", true, 0, "/none"), 9, 9),
    (("delete", true, 0, "/D"), 10, 10),
    (("delete", true, 0, "/file"), 16, 0),
    (("delete", true, 0, "/D/file"), 16, 0),
    (("remove_dir", true, 0, "/"), 8, 8),
    (("remove_dir", true, 0, "/D/none"), 9, 9),
    (("remove_dir", true, 0, "/file"), 10, 10),
    (("remove_dir", true, 0, "/D"), 13, 13),
    (("remove_dir", true, 0, "/D/E"), 16, 0),
];

/// 16 after 8, 14, 9, 10, 11 and 13 and before 12, by both, however C is compiled.
#[test]
fn order() {
    let folder = Folder::new();
    for way in c::WAYS {
        let program = c::compiled(&folder, c::test("locked"), way);
        for format in Format::BOTH {
            let open = card(format, &["/D", "/D/E"], &["/file", "/D/file"]);
            let mut shut = open.clone();
            lock_all(format, &mut shut);
            let changes = CHANGES.map(|(change, _, _)| change);
            for (image, expected) in [(&shut, CHANGES.map(|row| row.1)), (&open, CHANGES.map(|row| row.2))] {
                assert_eq!(changes.map(|change| number(format, image, change)), expected);
                assert_eq!(by_header(&folder, &program, format, image, &changes), expected);
            }
        }
    }
}

/// The words stand in the header, wherever its lines are broken.
#[track_caller]
fn says(words: &str) {
    let text = include_str!("../../include/ps2card.h").replace("\n *", " ");
    let text = text.split_whitespace().collect::<Vec<_>>().join(" ");
    assert!(text.contains(words), "the header no longer says: {words}");
}

/// A change asks for the bit of its own entry and of the directory directly around it: each lock by itself, against
/// every change that there is something to do for.
#[test]
fn which_entries_count() {
    says("A change is refused (16) where the file or directory that it replaces, deletes or removes is locked, or the directory directly around its path; nothing farther up or down counts.");
    says("A directory is locked by its entry in its parent, the root by its own first entry");
    says("The first two entries of other directories lock nothing.");
    let changes: [(Change, &[&str]); 12] = [
        (("create", true, 5, "/new"), &["/"]),
        (("make_dir", true, 0, "/NEW"), &["/"]),
        (("replace", true, 7, "/file"), &["/", "/file"]),
        (("delete", true, 0, "/file"), &["/", "/file"]),
        (("remove_dir", true, 0, "/EMPTY"), &["/", "/EMPTY"]),
        (("create", true, 5, "/D/new"), &["/D"]),
        (("make_dir", true, 0, "/D/NEW"), &["/D"]),
        (("replace", true, 7, "/D/file"), &["/D", "/D/file"]),
        (("create", true, 5, "/D/E/new"), &["/D/E"]),
        (("replace", true, 7, "/D/E/file"), &["/D/E", "/D/E/file"]),
        (("delete", true, 0, "/D/E/file"), &["/D/E", "/D/E/file"]),
        (("remove_dir", true, 0, "/D/E/F"), &["/D/E", "/D/E/F"]),
    ];
    let paths = ["/", "/EMPTY", "/D", "/D/E", "/D/E/F", "/file", "/D/file", "/D/E/file"];
    for format in Format::BOTH {
        let open = card(format, &paths[1..5], &paths[5..]);
        for path in paths {
            let mut image = open.clone();
            lock(format, &mut image, &[path]);
            for (change, asked) in changes {
                let expected = if asked.contains(&path) { 16 } else { 0 };
                assert_eq!(number(format, &image, change), expected, "{path} locked: {change:?}");
            }
        }
        // The dots of every directory but the root's first.
        for (directory, which) in paths[..5].iter().flat_map(|path| [(path, Dot), (path, Dots)]).skip(1) {
            let mut image = open.clone();
            lock_dots(format, &mut image, directory, which);
            let told = changes.map(|(change, _)| number(format, &image, change));
            assert_eq!(told, [0; 12], "{directory} {which:?}");
        }
    }
}

/// What a change makes has the bit; what is there keeps its mode, and its lock where that is not asked for.
#[test]
fn locks_stay() {
    says("No call locks or unlocks what is there, and what a change makes is not locked.");
    let time = Stamp(build::usual_time());
    for format in Format::BOTH {
        let mut image = card(format, &["/D"], &["/D/file", "/D/shut"]);
        lock(format, &mut image, &["/", "/D/shut"]);
        set_mode(format, &mut image, "/D/file", 0xB81E);
        let mut card = Card::new(in_wrapper(format), image);
        card.create(b"/D/new", &time, b"bytes").expect("room");
        card.make_dir(b"/D/NEW", &time).expect("room");
        card.replace(b"/D/file", &time, b"other bytes").expect("room");
        let paths = ["/", "/D", "/D/file", "/D/shut", "/D/new", "/D/NEW"];
        let modes = paths.map(|path| card.find(path.as_bytes()).expect("an entry").mode);
        assert_eq!(modes, [0x8425, 0x8427, 0xB81E, 0x8415, 0x8417, 0x8427]);
        card.delete(b"/D/new").expect("a file");
        card.remove_dir(b"/D/NEW").expect("an empty directory");
        assert_eq!(card.delete(b"/D/shut"), Err(Refusal::Locked));
        assert_eq!(paths.map(|path| card.find(path.as_bytes()).is_ok()), [true, true, true, true, false, false]);
    }
}

/// The mode as read counts: one wrong bit of a raw page is mended, and neither locks nor unlocks. A plain page has the
/// mode that it has.
#[test]
fn wrong_bits() {
    for format in Format::BOTH {
        let open = card(format, &[], &["/file"]);
        let mut shut = open.clone();
        lock(format, &mut shut, &["/file"]);
        for (image, is_locked) in [(open, format == Plain), (shut, format == Raw)] {
            // The write bit in page 22, the third entry of the bench card's root.
            let mut image = image;
            image[22 * format.page_bytes()] ^= 2;
            let told = [("replace", true, 7, "/file"), ("delete", true, 0, "/file"), ("create", true, 5, "/new")];
            let expected = if is_locked { [16, 16, 0] } else { [0; 3] };
            assert_eq!(told.map(|change| number(format, &image, change)), expected);
            let folder = Folder::of(format);
            folder.write("card", &image);
            let row = if is_locked { "file  locked  5 bytes  file\n" } else { "file  5 bytes  file\n" };
            let shown = folder.run(&["ls", "card"]).mending("card", usize::from(format == Raw));
            assert_eq!(String::from_utf8_lossy(&shown), row);
        }
    }
}

/// Every command that only looks answers on a locked card as on the open one, but for the modes.
#[test]
fn reading() {
    for format in Format::BOTH {
        let open = card(format, &["/D", "/D/E"], &["/file", "/D/file"]);
        let mut shut = open.clone();
        lock_all(format, &mut shut);
        let folder = Folder::of(format);
        let taken = |image: &[u8]| {
            folder.write("card", image);
            let looks: [&[&str]; 9] = [
                &["check", "card"],
                &["verify", "card"],
                &["list", "card"],
                &["step", "card", "/", "0"],
                &["step", "card", "/D", "3"],
                &["read", "card", "/D/file"],
                &["get", "card", "/file", "-"],
                &["get", "card", "/", "out"],
                &["compare", "card", "card"],
            ];
            let told = looks.map(|words| folder.run(words).text());
            assert!(folder.read("card") == image, "the image stays");
            (told, folder.tool("sh", &["-c", "tar -c --sort=name out; rm -r out"]).stdout)
        };
        assert!(taken(&open) == taken(&shut));
        folder.write("open", &open);
        folder.write("shut", &shut);
        let modes = "/ /D /D/E /D/file /file".split(' ').map(|path| match path.ends_with("file") {
            true => format!("mode 0x8417 0x8415 {path}\n"),
            false => format!("mode 0x8427 0x8425 {path}\n"),
        });
        let given = folder.run(&["compare", "open", "shut"]);
        assert_eq!((given.status, String::from_utf8_lossy(&given.out).into_owned()), (1, modes.collect::<String>()));
        let same = "the same files and bytes: 2 files, 3 directories\n";
        assert_eq!(folder.run(&["compare", "--bytes-only", "open", "shut"]).text(), same);
    }
    // There and back.
    let mut shut = card(Raw, &["/D"], &["/D/file"]);
    lock_all(Raw, &mut shut);
    let folder = Folder::new();
    folder.write("card", &shut);
    folder.run(&["convert", "card", "plain", "--to-plain"]).done();
    folder.run(&["convert", "plain", "raw", "--to-raw"]).done();
    let same = "the same: 1 files, 2 directories\n";
    assert_eq!(folder.run(&["compare", "card", "plain", "--plain-b"]).text(), same);
    assert_eq!(folder.run(&["compare", "card", "raw"]).text(), same);
}
