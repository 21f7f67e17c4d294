//! get, new and convert under a cut or an error of the host: what they make is whole, or it is not there.

mod common;

use std::fs;
use std::path::Path;
use std::process::Command;
use std::thread::sleep;
use std::time::{Duration, Instant, UNIX_EPOCH};

use common::{converted, Folder, USUAL};
use reader::build;
use reader::rng::Rng;
use reader::Format::{Plain, Raw};

/// What the runs of a kill test left.
#[derive(Debug, Default)]
struct Seen {
    absent: usize,
    whole: usize,
    hidden: usize,
}

/// Starts the command many times and kills it at random moments, whose middle moves to where half of the runs are
/// done. After each, what it makes is whole or absent.
fn kill(folder: &Folder, words: &[&[u8]], runs: usize, whole: &dyn Fn() -> bool, remove: &dyn Fn()) -> Seen {
    let start = Instant::now();
    folder.feed(words, b"").done();
    assert!(whole());
    let mut middle = start.elapsed();
    let (mut rng, mut seen) = (Rng::new(7), Seen::default());
    let target = folder.path("made");
    for _ in 0..runs {
        remove();
        let mut child = folder.start(words);
        sleep(middle * rng.below(2000) as u32 / 1000);
        child.kill().expect("a kill");
        child.wait().expect("an end");
        let is_there = fs::symlink_metadata(&target).is_ok();
        assert!(!is_there || whole(), "a part under its own name");
        middle = middle * if is_there { 9 } else { 11 } / 10;
        *(if is_there { &mut seen.whole } else { &mut seen.absent }) += 1;
        seen.hidden += usize::from(!hidden(folder).is_empty());
    }
    remove();
    folder.feed(words, b"").done();
    assert!(whole() && hidden(folder).is_empty(), "{:?}", folder.names());
    println!("{seen:?}");
    seen
}

fn hidden(folder: &Folder) -> Vec<String> {
    folder.names().into_iter().filter(|name| name.starts_with('.')).collect()
}

/// A card with a save of three large files and a directory.
fn large() -> (Vec<u8>, Vec<(&'static str, Vec<u8>)>) {
    let (mut image, time) = (build::standard(Raw), build::usual_time());
    let files = vec![("one", vec![1; 1_500_000]), ("two", vec![2; 1_500_000]), ("deep/three", vec![3; 1_500_000])];
    reader::make_dir(Raw, &mut image, b"/SAVE", &time).expect("room");
    reader::make_dir(Raw, &mut image, b"/SAVE/deep", &time).expect("room");
    for (name, bytes) in &files {
        reader::create(Raw, &mut image, format!("/SAVE/{name}").as_bytes(), &time, bytes).expect("room");
    }
    (image, files)
}

#[test]
fn killed_get_of_a_directory() {
    let folder = Folder::new();
    let (image, files) = large();
    folder.write("card", &image);
    let made = folder.path("made");
    let whole = || {
        let right = |(name, bytes): &(&str, Vec<u8>)| fs::read(made.join(name)).is_ok_and(|read| read == *bytes);
        files.iter().all(right) && entries(&made) == 3 && entries(&made.join("deep")) == 1
    };
    let remove = || drop(fs::remove_dir_all(&made));
    let seen = kill(&folder, &[b"get", b"card", b"/SAVE", b"made"], 60, &whole, &remove);
    assert!(seen.absent > 10 && seen.whole > 10 && seen.hidden > 3, "{seen:?}");
}

#[test]
fn killed_get_of_a_file() {
    let folder = Folder::new();
    let (image, files) = large();
    folder.write("card", &image);
    let made = folder.path("made");
    let whole = || fs::read(&made).is_ok_and(|read| read == files[0].1);
    let remove = || drop(fs::remove_file(&made));
    let seen = kill(&folder, &[b"get", b"card", b"/SAVE/one", b"made"], 60, &whole, &remove);
    assert!(seen.absent > 10 && seen.whole > 10 && seen.hidden > 1, "{seen:?}");
}

#[test]
fn killed_new() {
    let folder = Folder::new();
    let (made, card) = (folder.path("made"), build::standard(Raw));
    let whole = || fs::read(&made).is_ok_and(|read| read == card);
    let remove = || drop(fs::remove_file(&made));
    let seen = kill(&folder, &[b"new", b"made", b"--stamp", USUAL.as_bytes()], 60, &whole, &remove);
    assert!(seen.absent > 10 && seen.whole > 10 && seen.hidden > 1, "{seen:?}");
}

#[test]
fn killed_convert() {
    let folder = Folder::new();
    let (image, _) = large();
    let (made, plain) = (folder.path("made"), converted(Plain, &image));
    folder.write("card", &image);
    let whole = || fs::read(&made).is_ok_and(|read| read == plain);
    let remove = || drop(fs::remove_file(&made));
    let seen = kill(&folder, &[b"convert", b"card", b"made", b"--to-plain"], 60, &whole, &remove);
    assert!(seen.absent > 10 && seen.whole > 10 && seen.hidden > 1, "{seen:?}");
    assert!(folder.read("card") == image);
}

fn entries(folder: &Path) -> usize {
    fs::read_dir(folder).map_or(0, Iterator::count)
}

/// The command under a limit of the size of each file that it writes, in blocks of 512 bytes or 1,024.
fn limited(folder: &Folder, blocks: usize, words: &[&str]) -> (Option<i32>, String) {
    let script = format!("ulimit -f {blocks}; exec \"$@\"");
    let mut shell = Command::new("sh");
    shell.current_dir(folder.path(".")).args(["-c", &script, "sh", env!("CARGO_BIN_EXE_ps2card")]).args(words);
    let output = shell.output().expect("it runs");
    (output.status.code(), String::from_utf8(output.stderr).expect("text"))
}

/// A disk that takes only a part: nothing is left of it, and it is told.
#[test]
fn size_limit() {
    let folder = Folder::new();
    let (image, _) = large();
    folder.write("card", &image);
    folder.write("file", &[1; 3000]);
    let before = fs::metadata(folder.path("card")).expect("there").modified().expect("a time");
    let runs: [&[&str]; 6] = [
        &["get", "card", "/SAVE", "made"],
        &["get", "card", "/SAVE/one", "made"],
        &["new", "made"],
        &["convert", "card", "made", "--to-plain"],
        &["mkdir", "card", "/X"],
        &["create", "card", "/X", "file"],
    ];
    for words in runs {
        for blocks in [0, 1, 100, 1000] {
            let (status, err) = limited(&folder, blocks, words);
            assert!(status == Some(3) && err.contains("File too large"), "{words:?}: {status:?} {err}");
            assert_eq!(folder.names(), ["card", "file"], "{words:?}");
        }
    }
    assert_eq!(fs::metadata(folder.path("card")).expect("there").modified().expect("a time"), before);
    assert!(folder.read("card") == image);
    let (status, err) = limited(&folder, 100_000, runs[0]);
    assert_eq!((status, err.as_str()), (Some(0), ""));
}

/// What another run is still making is not taken for what a cut left.
#[test]
fn many_at_once() {
    let folder = Folder::new();
    let (image, files) = large();
    folder.write("card", &image);
    for round in 0..4 {
        let names: Vec<String> = (0..6).map(|number| format!("copy{round}{number}")).collect();
        let words = |name: &'static str| move |to: &String| (name, to.clone());
        let runs = names.iter().take(4).map(words("/SAVE")).chain(names.iter().skip(4).map(words("/SAVE/one")));
        let mut children: Vec<_> =
            runs.map(|(path, to)| folder.start(&[b"get", b"card", path.as_bytes(), to.as_bytes()])).collect();
        assert!(children.iter_mut().all(|child| child.wait().expect("an end").success()));
        for name in &names[..4] {
            assert!(files.iter().all(|(file, bytes)| folder.read(&format!("{name}/{file}")) == *bytes));
        }
        assert!(names[4..].iter().all(|name| folder.read(name) == files[0].1));
    }
    assert!(hidden(&folder).is_empty());
    // To the same name: one wins, the others are told, and it is whole.
    let mut children: Vec<_> = (0..6).map(|_| folder.start(&[b"get", b"card", b"/SAVE", b"same"])).collect();
    let statuses: Vec<_> = children.iter_mut().map(|child| child.wait().expect("an end").code()).collect();
    assert_eq!(statuses.iter().filter(|&&status| status == Some(0)).count(), 1, "{statuses:?}");
    assert_eq!(statuses.iter().filter(|&&status| status == Some(3)).count(), 5, "{statuses:?}");
    assert!(files.iter().all(|(file, bytes)| folder.read(&format!("same/{file}")) == *bytes));
    assert!(hidden(&folder).is_empty());
}

/// The card's times become the host's: Japan's time as the same moment; where it is none, the time is now.
#[test]
fn times_kept() {
    let folder = Folder::new();
    let mut image = build::bench(Raw);
    let time = |hour| reader::time::stamp(2001, 9, 9, hour, 46, 40);
    reader::make_dir(Raw, &mut image, b"/D", &time(10)).expect("room");
    reader::create(Raw, &mut image, b"/D/A", &time(11), b"a").expect("room");
    reader::make_dir(Raw, &mut image, b"/D/E", &time(12)).expect("room");
    reader::create(Raw, &mut image, b"/D/E/B", &time(8), b"b").expect("room");
    folder.write("card", &image);
    folder.run(&["get", "card", "/D", "out"]).done();
    let modified = |name: &str| fs::metadata(folder.path(name)).expect("there").modified().expect("a time");
    let seconds = |name: &str| modified(name).duration_since(UNIX_EPOCH).expect("later").as_secs();
    // The second 1,000,000,000 was 9 September 2001, 01:46:40 in UTC, 10:46:40 in Japan.
    let hour = 3600;
    let expected = [("out", 0), ("out/A", hour), ("out/E", 2 * hour)];
    assert!(expected.iter().all(|(name, after)| seconds(name) == 1_000_000_000 + after), "{:?}", seconds("out"));
    assert_eq!(seconds("out/E/B"), 1_000_000_000 - 2 * hour);
    folder.run(&["get", "card", "/D/E/B", "file"]).done();
    assert_eq!(seconds("file"), 1_000_000_000 - 2 * hour);

    let checked = reader::tree::Checked::of(Raw, &image).expect("accepted");
    let entry = checked.root.inside.as_ref().and_then(|inside| inside.child(b"D")).expect("/D").page;
    let mut data = reader::page::read(Raw, &image, entry).expect("readable");
    data[0x18 + 5] = 13;
    reader::page::write(Raw, &mut image, entry, &data);
    folder.write("card", &image);
    folder.run(&["get", "card", "/D", "again"]).done();
    assert!(modified("again").elapsed().expect("earlier") < Duration::from_secs(60));
    assert_eq!(seconds("again/A"), 1_000_000_000 + hour);
}
