//! Another program at the image while a change runs, other names of it, the wait for its lock, a folder that cannot be
//! synced.

mod common;

use std::fs::{self, File, Permissions};
use std::io::{Seek, SeekFrom, Write};
use std::os::unix::fs::{MetadataExt, PermissionsExt};
use std::path::Path;
use std::process::Child;
use std::sync::atomic::{AtomicBool, Ordering};
use std::thread::sleep;
use std::time::{Duration, Instant};

use common::{Folder, Outcome, USUAL};
use reader::build;
use reader::Format::Raw;

/// A change that takes a while: a save of many files for a card of many entries.
fn slow(folder: &Folder) -> Vec<&'static [u8]> {
    if !folder.path("SAVE").exists() {
        fs::create_dir(folder.path("SAVE")).expect("a folder");
        (0..120).for_each(|number| drop(folder.write(&format!("SAVE/f{number:03}"), b"a file")));
    }
    vec![b"put", b"card", b"SAVE", b"--stamp", USUAL.as_bytes()]
}

/// Waits until the change holds the image's lock and has begun to read.
fn wait_for_lock(path: &Path) {
    let file = File::open(path).expect("the image");
    let start = Instant::now();
    while file.try_lock().is_ok() {
        file.unlock().expect("unlocked");
        assert!(start.elapsed() < Duration::from_secs(20), "it never took the lock");
        sleep(Duration::from_millis(1));
    }
    sleep(Duration::from_millis(50));
}

fn end(child: Child) -> Outcome {
    Outcome::of(child.wait_with_output().expect("an end"))
}

/// Bytes written in place, a file renamed over it, cut, grown, removed, made private: each is seen, and stays.
#[test]
fn seen_and_left_alone() {
    let folder = Folder::new();
    let card = folder.path("card");
    let other = build::standard(Raw);
    let old = build::crowded(Raw);
    type Deed<'a> = (&'a str, &'a dyn Fn());
    let in_place = || {
        let mut file = fs::OpenOptions::new().write(true).open(&card).expect("open");
        file.seek(SeekFrom::Start(8_000_000)).expect("a place");
        file.write_all(b"the emulator's bytes").expect("written");
    };
    // The same, with the time put back.
    let hidden = || {
        let modified = fs::metadata(&card).expect("there").modified().expect("a time");
        in_place();
        File::options().write(true).open(&card).expect("open").set_modified(modified).expect("a time");
    };
    let renamed = || {
        folder.write("other", &other);
        fs::rename(folder.path("other"), &card).expect("renamed");
    };
    let set_length = |length| File::options().write(true).open(&card).expect("open").set_len(length).expect("a length");
    let cut = || set_length(8_000_000);
    let grown = || set_length(8_650_753);
    let removed = || fs::remove_file(&card).expect("removed");
    let private = || fs::set_permissions(&card, Permissions::from_mode(0o600)).expect("permissions");
    let deeds: [Deed; 7] = [
        ("in place", &in_place),
        ("in place, time put back", &hidden),
        ("renamed", &renamed),
        ("cut", &cut),
        ("grown", &grown),
        ("removed", &removed),
        ("made private", &private),
    ];
    let words = slow(&folder);
    for (name, deed) in deeds {
        folder.write("card", &old);
        fs::set_permissions(&card, Permissions::from_mode(0o644)).expect("permissions");
        let child = folder.start(&words);
        wait_for_lock(&card);
        deed();
        let (left, mode) = (fs::read(&card).ok(), fs::metadata(&card).map(|metadata| metadata.mode()).ok());
        let given = end(child);
        assert!(given.status == 3 && given.err.contains("another program changed it"), "{name}: {given:?}");
        assert!(given.err.contains("cannot change card: ") && given.out.is_empty(), "{name}: {given:?}");
        assert!(fs::read(&card).ok() == left, "{name}");
        assert_eq!(fs::metadata(&card).map(|metadata| metadata.mode()).ok(), mode, "{name}");
        assert!(folder.names().iter().all(|name| !name.starts_with('.')), "{name}: {:?}", folder.names());
    }
    // Left alone, the same change goes through.
    folder.write("card", &old);
    folder.feed(&words, b"").done();
}

/// An image that is written while it is read is not taken for a card; one that is replaced whole is.
#[test]
fn written_while_read() {
    let folder = Folder::new();
    let image = build::standard(Raw);
    let card = folder.write("card", &image);
    let over = AtomicBool::new(false);
    let (mut done, mut told) = (0, 0);
    std::thread::scope(|scope| {
        scope.spawn(|| {
            let mut file = File::options().write(true).open(&card).expect("open");
            while !over.load(Ordering::Relaxed) {
                file.rewind().and_then(|()| file.write_all(&image[..528])).expect("written");
                sleep(Duration::from_micros(200));
            }
        });
        for _ in 0..50 {
            let given = folder.run(&["check", "card"]);
            match given.status {
                0 => done += 1,
                _ => drop((given.failed(3, "cannot read card: another program is writing it"), told += 1)),
            }
        }
        over.store(true, Ordering::Relaxed);
    });
    println!("{done} read, {told} told");
    assert!(told > 0);
    let mut children: Vec<_> =
        (0..5).map(|number| folder.start(&[b"mkdir", b"card", format!("/D{number}").as_bytes()])).collect();
    for _ in 0..20 {
        folder.run(&["check", "card"]).done();
    }
    children.iter_mut().for_each(|child| assert!(child.wait().expect("an end").success()));
}

/// A look, however often, is no change.
#[test]
fn lookers_do_not_count() {
    let folder = Folder::new();
    folder.write("card", &build::crowded(Raw));
    let child = folder.start(&slow(&folder));
    wait_for_lock(&folder.path("card"));
    for _ in 0..5 {
        folder.run(&["check", "card"]).done();
    }
    end(child).done();
}

#[test]
fn other_names_are_told() {
    let folder = Folder::new();
    let old = build::bench(Raw);
    folder.write("card", &old);
    fs::hard_link(folder.path("card"), folder.path("second")).expect("a link");
    let given = folder.run(&["mkdir", "card", "/A"]);
    assert_eq!((given.status, given.err.matches('\n').count()), (0, 1), "{given:?}");
    assert!(given.err.contains("card had one other name (a hard link); it keeps the old card"), "{given:?}");
    assert_eq!(folder.read("second"), old);
    // Its own name now, so that nothing more is to tell.
    folder.run(&["mkdir", "card", "/B"]).done();
    for name in ["third", "fourth"] {
        fs::hard_link(folder.path("card"), folder.path(name)).expect("a link");
    }
    assert!(folder.run(&["mkdir", "card", "/C"]).err.contains("card had 2 other names (hard links)"));
}

/// Who waits longer than a second says for whom.
#[test]
fn waits_for_whom() {
    let folder = Folder::new();
    folder.write("card", &build::bench(Raw));
    let held = File::open(folder.path("card")).expect("the image");
    held.lock().expect("the lock");
    let child = folder.start(&[b"mkdir", b"card", b"/late"]);
    sleep(Duration::from_millis(2500));
    drop(held);
    let given = end(child);
    let process = std::process::id();
    assert_eq!(given.status, 0);
    let start = format!("ps2card: card is locked by process {process} (");
    assert!(given.err.starts_with(&start) && given.err.ends_with("); waiting for it\n"), "{given:?}");
    // A short wait is not worth a word.
    let held = File::open(folder.path("card")).expect("the image");
    held.lock().expect("the lock");
    let child = folder.start(&[b"mkdir", b"card", b"/soon"]);
    sleep(Duration::from_millis(300));
    drop(held);
    end(child).done();
}

/// What is done answers 0, though nobody knows whether the folder would last through a power cut.
#[test]
fn folder_cannot_be_synced() {
    let folder = Folder::new();
    folder.write("card", &build::bench(Raw));
    folder.write("file", b"a file");
    let runs: [&[&str]; 5] = [
        &["mkdir", "card", "/D"],
        &["create", "card", "/D/A", "file"],
        &["get", "card", "/D/A", "copy"],
        &["new", "fresh"],
        &["rm", "-r", "card", "/D"],
    ];
    for words in runs {
        let given = folder.run_failing("folder sync", words);
        assert_eq!((given.status, given.err.matches('\n').count()), (0, 1), "{words:?}: {given:?}");
        assert!(given.err.contains(" is done, but ") && given.err.contains("Input/output error"), "{given:?}");
    }
    assert_eq!((folder.read("card").len(), folder.read("copy").len()), (59_136, 6));
    assert_eq!(folder.run(&["ls", "card"]).text(), "/ is empty\n");
    // Inside the copy it is not done yet.
    folder.run(&["mkdir", "card", "/D"]).done();
    folder.run_failing("folder sync", &["get", "card", "/D", "whole"]).failed(3, "cannot write whole");
    assert!(!folder.path("whole").exists());
}

/// A file system that cannot rename without replacing: the same, and still never over another.
#[test]
fn no_careful_rename() {
    let folder = Folder::new();
    folder.write("card", &build::samples::shop());
    folder.run_failing("rename", &["get", "card", "/", "out"]).done();
    folder.run_failing("rename", &["get", "card", "/SAVE/A", "file"]).done();
    folder.run_failing("rename", &["new", "fresh"]).done();
    assert_eq!(folder.read("out/SAVE/A"), folder.read("file"));
    folder.run_failing("rename", &["get", "card", "/SAVE/A", "file"]).failed(3, "File exists");
    folder.run_failing("rename", &["get", "card", "/", "out"]).failed(3, "File exists");
    assert_eq!(folder.names(), [".shim.so", "card", "file", "fresh", "out"]);
}
