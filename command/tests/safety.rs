//! What a cut, a second station and odd files do to an image: nothing.

mod common;

use std::fs::{self, File, Permissions};
use std::os::unix::fs::{symlink, MetadataExt, PermissionsExt};
use std::thread::sleep;
use std::time::{Duration, Instant};

use common::{Folder, USUAL, USUAL_LISTED};
use reader::build;
use reader::rng::Rng;
use reader::Format::Raw;

/// Killed at any moment of a change, the image is the old one or the new one, and the next change goes through.
#[test]
fn killed_at_random_moments() {
    let folder = Folder::new();
    let old = build::crowded(Raw);
    let mut new = old.clone();
    let bytes = vec![0x5A; 2_000_000];
    folder.write("file", &bytes);
    reader::create(Raw, &mut new, b"/BIG", &build::usual_time(), &bytes).expect("room");
    let words: [&[u8]; 6] = [b"create", b"card", b"/BIG", b"file", b"--stamp", USUAL.as_bytes()];
    folder.write("card", &old);
    let start = Instant::now();
    folder.feed(&words, b"").done();
    // The middle of the moments drawn moves to where half of the runs have made the change.
    let mut middle = start.elapsed();
    let mut rng = Rng::new(6);
    let (mut kept, mut made, mut left) = (0, 0, 0);
    for _ in 0..80 {
        folder.write("card", &old);
        let mut child = folder.start(&words);
        sleep(middle * rng.below(2000) as u32 / 1000);
        child.kill().expect("a kill");
        child.wait().expect("an end");
        let image = folder.read("card");
        assert!(image == old || image == new, "neither the old image nor the new one");
        let done = image == new;
        middle = middle * if done { 9 } else { 11 } / 10;
        made += usize::from(done);
        kept += usize::from(!done);
        left += usize::from(folder.names().len() > 2);
    }
    println!("old {kept}, new {made}, cut while writing {left}");
    assert!(kept > 10 && made > 10 && left > 0, "old {kept}, new {made}, cut while writing {left}");
    folder.write("card", &old);
    folder.feed(&words, b"").done();
    assert!(folder.read("card") == new);
    assert_eq!(folder.names(), ["card", "file"]);
}

/// Many changes at once: each is there in the end.
#[test]
fn two_stations() {
    let folder = Folder::new();
    folder.write("card", &build::standard(Raw));
    let names: Vec<String> = (0..40).map(|number| format!("/S{number:02}")).collect();
    for pair in names.chunks(8) {
        let mut children: Vec<_> =
            pair.iter().map(|name| folder.start(&[b"mkdir", b"card", name.as_bytes()])).collect();
        for child in &mut children {
            assert!(child.wait().expect("an end").success());
        }
    }
    let listing = folder.run(&["list", "card"]).text();
    assert!(names.iter().all(|name| listing.contains(&format!("\nd 2 {name} "))), "{listing}");
    assert_eq!((listing.lines().count(), folder.names()), (46, vec!["card".to_string()]));
}

/// A change waits for the lock, and then sees what its holder did.
#[test]
fn waits_for_the_lock() {
    let folder = Folder::new();
    folder.write("card", &build::bench(Raw));
    let held = File::open(folder.path("card")).expect("the image");
    held.lock().expect("the lock");
    let mut child = folder.start(&[b"mkdir", b"card", b"/late", b"--stamp", USUAL.as_bytes()]);
    sleep(Duration::from_millis(300));
    assert!(child.try_wait().expect("a look").is_none(), "it went on without the lock");
    let mut image = build::bench(Raw);
    reader::make_dir(Raw, &mut image, b"/early", &build::usual_time()).expect("room");
    folder.write("other", &image);
    fs::rename(folder.path("other"), folder.path("card")).expect("renamed");
    drop(held);
    assert!(child.wait().expect("an end").success());
    let listing = folder.run(&["list", "card"]).text();
    assert!(listing.ends_with(&format!("d 2 /early {USUAL_LISTED}\nd 2 /late {USUAL_LISTED}\n")), "{listing}");
}

/// Permissions and owner stay; a link stays a link, and its target is changed.
#[test]
fn permissions_and_links() {
    let folder = Folder::new();
    let card = folder.write("card", &build::bench(Raw));
    symlink("card", folder.path("link")).expect("a link");
    for mode in [0o600, 0o640, 0o666, 0o755] {
        fs::set_permissions(&card, Permissions::from_mode(mode)).expect("permissions");
        let was = fs::metadata(&card).expect("there");
        folder.run(&["mkdir", "link", &format!("/M{mode}")]).done();
        let now = fs::metadata(&card).expect("there");
        assert_eq!(now.permissions().mode() & 0o7777, mode);
        assert_eq!((now.uid(), now.gid()), (was.uid(), was.gid()));
    }
    assert!(fs::symlink_metadata(folder.path("link")).expect("there").is_symlink());
    assert_eq!(folder.run(&["list", "card"]).text().lines().count(), 10);
}

/// What a cut left beside the image, even a link to elsewhere, is in nobody's way and is not written through.
#[test]
fn leftovers() {
    let folder = Folder::new();
    folder.write("card", &build::bench(Raw));
    folder.write("elsewhere", b"mine");
    symlink("elsewhere", folder.path(".ps2card-new-1-0")).expect("a link");
    folder.write(".ps2card-new-1-1", b"half an image");
    folder.run(&["mkdir", "card", "/d"]).done();
    assert_eq!((folder.read("elsewhere"), folder.names()), (b"mine".to_vec(), vec!["card".into(), "elsewhere".into()]));
}

/// What is no file is not replaced by one.
#[test]
fn no_regular_file() {
    let folder = Folder::new();
    assert!(folder.tool("mkfifo", &["pipe"]).status.success());
    folder.run(&["mkdir", "pipe", "/d"]).failed(3, "cannot change pipe");
    assert!(!fs::metadata(folder.path("pipe")).expect("there").is_file());
}
