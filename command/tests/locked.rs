//! Locked files and directories: which changes the command refuses with 16 and what it says, that nothing is written
//! then, and what `ls` and `find` show.

mod common;

use std::fs;
use std::os::unix::fs::MetadataExt;

use common::locked::{card, lock, lock_all, lock_dots, set_mode, WORDS};
use common::Folder;
use reader::build::locks::Which::{Dot, Dots};
use reader::Format;

/// A card with locks on a file in an open directory, on an empty directory, and on one with a file, with a locked file,
/// with an empty directory and with an open one that has a file.
fn locked(format: Format) -> Vec<u8> {
    let directories = ["/OPEN", "/LOCK", "/SHUT", "/SHUT/EMPTY", "/SHUT/DEEP"];
    let files = ["/OPEN/file", "/OPEN/shut", "/SHUT/file", "/SHUT/shut", "/SHUT/DEEP/file"];
    let mut image = card(format, &directories, &files);
    lock(format, &mut image, &["/OPEN/shut", "/LOCK", "/SHUT", "/SHUT/shut"]);
    image
}

/// A folder with this card, a host file and a host directory.
fn station(format: Format, image: &[u8]) -> Folder {
    let folder = Folder::of(format);
    folder.write("card", image);
    folder.write("file", b"other bytes");
    fs::create_dir(folder.path("SAVE")).expect("a folder");
    folder.write("SAVE/A", b"of a save");
    folder
}

/// Each of these is refused at a path because of these locks, in these words alone; bytes, inode and times of the image
/// file stay, and nothing else is left in its folder.
#[track_caller]
fn refused(folder: &Folder, runs: &[(&[&str], &str, &str)]) {
    let state = || {
        let file = fs::metadata(folder.path("card")).expect("there");
        (folder.read("card"), file.ino(), file.mtime_nsec(), file.ctime_nsec(), file.mode(), folder.names())
    };
    let before = state();
    for (words, path, locks) in runs {
        let given = folder.run(words);
        assert_eq!(given.err, format!("{WORDS}; {locks} (card: {path})\n"), "{words:?}");
        assert_eq!((given.status, given.out.len()), (1, 0), "{words:?}");
        assert!(state() == before, "{words:?}");
    }
}

/// Each of these is done, on the card as it is now.
#[track_caller]
fn done(folder: &Folder, image: &[u8], runs: &[&[&str]]) {
    for words in runs {
        folder.write("card", image);
        assert_eq!(folder.run(words).done(), b"", "{words:?}");
        assert!(folder.read("card") != image, "{words:?}");
    }
}

#[test]
fn changes() {
    for format in Format::BOTH {
        let image = locked(format);
        let folder = station(format, &image);
        let (on_shut, on_both) = ("the lock is on /SHUT", "the locks are on /SHUT/shut and /SHUT");
        refused(
            &folder,
            &[
                (&["create", "card", "/SHUT/new", "file"], "/SHUT/new", on_shut),
                (&["create", "card", "/LOCK/new", "file"], "/LOCK/new", "the lock is on /LOCK"),
                (&["mkdir", "card", "/SHUT/NEW"], "/SHUT/NEW", on_shut),
                (&["replace", "card", "/OPEN/shut", "file"], "/OPEN/shut", "the lock is on /OPEN/shut"),
                (&["replace", "card", "/SHUT/file", "file"], "/SHUT/file", on_shut),
                (&["replace", "card", "/SHUT/shut", "file"], "/SHUT/shut", on_both),
                (&["delete", "card", "/OPEN/shut"], "/OPEN/shut", "the lock is on /OPEN/shut"),
                (&["rm", "card", "/SHUT/file"], "/SHUT/file", on_shut),
                (&["rm", "-r", "card", "/SHUT/shut"], "/SHUT/shut", on_both),
                (&["rmdir", "card", "/LOCK"], "/LOCK", "the lock is on /LOCK"),
                (&["rmdir", "card", "/SHUT/EMPTY"], "/SHUT/EMPTY", on_shut),
                // Half way: what was deleted before it in memory comes back.
                (&["rm", "-r", "card", "/OPEN"], "/OPEN/shut", "the lock is on /OPEN/shut"),
                (&["rm", "-r", "card", "/SHUT"], "/SHUT/shut", on_both),
                (&["rm", "-r", "card", "/SHUT/DEEP"], "/SHUT/DEEP", on_shut),
                (&["rm", "-r", "card", "/LOCK"], "/LOCK", "the lock is on /LOCK"),
            ],
        );
        // A lock farther up, or on something else in the directory, is none for these.
        let runs: [&[&str]; 11] = [
            &["create", "card", "/OPEN/new", "file"],
            &["mkdir", "card", "/OPEN/NEW"],
            &["replace", "card", "/OPEN/file", "file"],
            &["delete", "card", "/OPEN/file"],
            &["create", "card", "/SHUT/DEEP/new", "file"],
            &["mkdir", "card", "/SHUT/DEEP/NEW"],
            &["create", "card", "/SHUT/EMPTY/new", "file"],
            &["replace", "card", "/SHUT/DEEP/file", "file"],
            &["delete", "card", "/SHUT/DEEP/file"],
            &["put", "card", "SAVE"],
            &["put", "card", "file"],
        ];
        done(&folder, &image, &runs);
    }
}

/// By its own first entry the root is locked: what stands directly in it stays, what is below it does not matter.
#[test]
fn the_root() {
    for format in Format::BOTH {
        let mut image = card(format, &["/EMPTY", "/D", "/D/E"], &["/file", "/D/file"]);
        lock(format, &mut image, &["/"]);
        let folder = station(format, &image);
        let on_root = "the lock is on /";
        refused(
            &folder,
            &[
                (&["create", "card", "/new", "file"], "/new", on_root),
                (&["mkdir", "card", "/NEW"], "/NEW", on_root),
                (&["replace", "card", "/file", "file"], "/file", on_root),
                (&["delete", "card", "/file"], "/file", on_root),
                (&["rmdir", "card", "/EMPTY"], "/EMPTY", on_root),
                (&["rm", "-r", "card", "/file"], "/file", on_root),
                (&["put", "card", "SAVE"], "/SAVE", on_root),
                (&["put", "card", "SAVE", "--as", "OTHER"], "/OTHER", on_root),
                (&["put", "card", "file", "--as", "new"], "/new", on_root),
                // All below it goes in memory before the directory itself is met.
                (&["rm", "-r", "card", "/D"], "/D", on_root),
            ],
        );
        let runs: [&[&str]; 6] = [
            &["create", "card", "/D/new", "file"],
            &["mkdir", "card", "/EMPTY/NEW"],
            &["replace", "card", "/D/file", "file"],
            &["delete", "card", "/D/file"],
            &["rmdir", "card", "/D/E"],
            &["rm", "-r", "card", "/D/E"],
        ];
        done(&folder, &image, &runs);
        // A name that is there is told before, room that is missing after.
        folder.write("card", &image);
        folder.write("much", &[7; 40 * 1024]);
        folder.run(&["put", "card", "SAVE", "--as", "D"]).failed(1, "refused 11: ");
        refused(&folder, &[(&["put", "card", "much"], "/much", on_root)]);
    }
}

/// `.` and `..` of a directory are no entry of it: their bits count nowhere, but for the root's first.
#[test]
fn dots() {
    for format in Format::BOTH {
        let mut image = card(format, &["/D", "/D/E"], &["/file", "/D/file"]);
        for (directory, which) in [("/", Dots), ("/D", Dot), ("/D", Dots), ("/D/E", Dot), ("/D/E", Dots)] {
            lock_dots(format, &mut image, directory, which);
        }
        let folder = station(format, &image);
        let runs: [&[&str]; 10] = [
            &["create", "card", "/new", "file"],
            &["create", "card", "/D/new", "file"],
            &["mkdir", "card", "/D/E/NEW"],
            &["replace", "card", "/file", "file"],
            &["replace", "card", "/D/file", "file"],
            &["delete", "card", "/file"],
            &["delete", "card", "/D/file"],
            &["rmdir", "card", "/D/E"],
            &["rm", "-r", "card", "/D"],
            &["put", "card", "SAVE"],
        ];
        done(&folder, &image, &runs);
        folder.write("card", &image);
        assert_eq!(folder.run(&["ls", "card", "/D"]).text(), "dir   0 entries  E\nfile    5 bytes  file\n");
        // Nor do they unlock: those of a directory that a change made have the bit.
        let mut image = card(format, &["/D"], &[]);
        lock(format, &mut image, &["/D"]);
        folder.write("card", &image);
        refused(&folder, &[(&["mkdir", "card", "/D/NEW"], "/D/NEW", "the lock is on /D")]);
    }
}

/// For people: the word where an entry is locked, and a line where the directory is.
#[test]
fn ls() {
    for format in Format::BOTH {
        let mut image = locked(format);
        let folder = station(format, &image);
        let root = "dir           2 entries  OPEN\ndir   locked  0 entries  LOCK\ndir   locked  4 entries  SHUT\n";
        assert_eq!(folder.run(&["ls", "card"]).text(), root);
        let open = "file          5 bytes  file\nfile  locked  5 bytes  shut\n";
        assert_eq!(folder.run(&["ls", "card", "/OPEN"]).text(), open);
        let long =
            "file          5 bytes  2000-02-29 12:34:56  file\nfile  locked  5 bytes  2000-02-29 12:34:56  shut\n";
        assert_eq!(folder.run(&["ls", "-l", "card", "/OPEN"]).text(), long);
        let line =
            |path: &str| format!("{path} is locked: nothing directly inside it can be created, replaced or deleted\n");
        let shut = [
            "dir           0 entries  EMPTY\n",
            "dir             1 entry  DEEP\n",
            "file            5 bytes  file\n",
            "file  locked    5 bytes  shut\n",
        ];
        assert_eq!(folder.run(&["ls", "card", "/SHUT"]).text(), line("/SHUT") + &shut.concat());
        assert_eq!(folder.run(&["ls", "card", "/LOCK"]).text(), line("/LOCK") + "/LOCK is empty\n");
        // One file: its own lock, and that of the directory around it. Nothing farther up is told.
        assert_eq!(folder.run(&["ls", "card", "/OPEN/file"]).text(), "file  5 bytes  file\n");
        assert_eq!(folder.run(&["ls", "card", "/OPEN/shut"]).text(), "file  locked  5 bytes  shut\n");
        assert_eq!(folder.run(&["ls", "card", "/SHUT/file"]).text(), line("/SHUT") + "file  5 bytes  file\n");
        assert_eq!(folder.run(&["ls", "card", "/SHUT/DEEP"]).text(), "file  5 bytes  file\n");
        lock(format, &mut image, &["/"]);
        folder.write("card", &image);
        assert_eq!(folder.run(&["ls", "card"]).text(), line("/") + root);
        assert_eq!(folder.run(&["ls", "card", "/OPEN"]).text(), open);
        // A name may be the word: it stands behind the size.
        let mut image = card(format, &[], &["/locked", "/locked  5 bytes  x"]);
        folder.write("card", &image);
        let rows = "file  5 bytes  locked\nfile  5 bytes  locked  5 bytes  x\n";
        assert_eq!(folder.run(&["ls", "card"]).text(), rows);
        lock_all(format, &mut image);
        folder.write("card", &image);
        let rows = rows.replace("file  ", "file  locked  ");
        assert_eq!(folder.run(&["ls", "card"]).text(), line("/") + &rows);
    }
}

/// The mode as a number, the names of its bits, and the lock.
#[test]
fn find() {
    for format in Format::BOTH {
        let mut image = card(format, &["/D"], &["/file"]);
        let folder = station(format, &image);
        let first = |image: &[u8], path: &str| {
            folder.write("card", image);
            let text = folder.run(&["find", "card", path]).text();
            assert_eq!(text.lines().count(), 8);
            text.lines().next().expect("a line").to_string()
        };
        assert_eq!(first(&image, "/file"), "mode 0x8417 (exists, file, read, write, execute)");
        assert_eq!(first(&image, "/"), "mode 0x8427 (exists, directory, read, write, execute)");
        lock_all(format, &mut image);
        assert_eq!(first(&image, "/file"), "mode 0x8415 (exists, file, read, execute; locked)");
        assert_eq!(first(&image, "/D"), "mode 0x8425 (exists, directory, read, execute; locked)");
        assert_eq!(first(&image, "/"), "mode 0x8425 (exists, directory, read, execute; locked)");
        set_mode(format, &mut image, "/file", 0x8010);
        assert_eq!(first(&image, "/file"), "mode 0x8010 (exists, file; locked)");
        set_mode(format, &mut image, "/file", 0xFFDF);
        let all = "exists, file, read, write, execute, protected, pocketstation, psx, hidden";
        assert_eq!(first(&image, "/file"), format!("mode 0xffdf ({all})"));
        let whole = "length 5\ncreated 2000-02-29T12:34:56\nmodified 2000-02-29T12:34:56\nfirst 3\ndir_entry 0\nattribute 0\nname file\n";
        assert_eq!(folder.run(&["find", "card", "/file"]).text(), format!("mode 0xffdf ({all})\n{whole}"));
    }
}
