//! rm -r: a whole save goes as one change, or nothing does.

mod common;

use std::fs;
use std::thread::sleep;
use std::time::Instant;

use common::locked::lock_some;
use common::Folder;
use reader::build::{self, bad, random};
use reader::rng::Rng;
use reader::Format::Raw;
use reader::{paths, Format, Refusal, Tree};

/// Removes a path and all below it by the reader's own single changes, the deepest last name first; how many entries
/// went, or why one does not.
fn remove_all(format: Format, image: &mut [u8], path: &[u8]) -> Result<usize, Refusal> {
    let tree = reader::tree(format, image).expect("accepted");
    let below: Vec<_> = tree.iter().filter(|(other, _)| paths::is_beginning(path, other)).collect();
    for (path, item) in below.iter().rev() {
        match item.is_directory {
            true => reader::remove_dir(format, image, path)?,
            false => reader::delete(format, image, path)?,
        }
    }
    Ok(below.len())
}

/// Every file and directory of random cards: what stays is the tree without it, every cluster of it is free, and the
/// image is the one that single changes leave. Where anything of it or the directory around it is locked, nothing goes.
#[test]
fn random_cards() {
    Format::BOTH.into_iter().for_each(random_cards_of);
}

fn random_cards_of(format: Format) {
    let folder = Folder::of(format);
    let (mut files, mut directories, mut most, mut locked) = (0, 0, 0, 0);
    for seed in 0..50 {
        let mut rng = Rng::new(seed);
        let mut image = random::sized(format, seed, 8 * rng.between(4, 40)).image;
        lock_some(format, &mut image, &mut rng, if seed % 5 == 0 { 2 } else { 0 });
        let tree = reader::tree(format, &image).expect("accepted");
        for path in tree.keys().filter(|path| *path != b"/" && rng.chance(1, 3)) {
            folder.write("card", &image);
            let given = folder.feed(&[b"rm", b"-r", b"card", path], b"");
            let mut expected = image.clone();
            match remove_all(format, &mut expected, path) {
                Ok(removed) => most = most.max(removed),
                Err(refusal) => {
                    assert!(refusal.number == 16 && folder.read("card") == image, "{refusal}, {}", path.escape_ascii());
                    given.refused(refusal);
                    locked += 1;
                    continue;
                }
            }
            given.done();
            assert!(folder.read("card") == expected, "{format:?}, seed {seed} {}", path.escape_ascii());
            let rest: Tree = tree.clone().into_iter().filter(|(other, _)| !paths::is_beginning(path, other)).collect();
            assert_eq!(reader::tree(format, &expected).expect("accepted"), rest);
            *(if tree[path].is_directory { &mut directories } else { &mut files }) += 1;
        }
    }
    println!("{format:?}: {files} files, {directories} directories, up to {most} entries; {locked} locked");
    assert!(files > 50 && directories > 20 && most > 8 && locked > 10, "{files} {directories} {most} {locked}");
}

#[test]
fn refusals() {
    Format::BOTH.into_iter().for_each(refusals_of);
}

fn refusals_of(format: Format) {
    let folder = Folder::of(format);
    let mut image = build::bench(format);
    let time = build::usual_time();
    reader::make_dir(format, &mut image, b"/d", &time).expect("room");
    reader::create(format, &mut image, b"/d/f", &time, b"bytes").expect("room");
    let card = folder.write("card", &image);
    let was = fs::metadata(&card).expect("there").modified().expect("a time");
    for (path, number) in [("/", 8), ("d", 8), ("/x", 9), ("/d/f/x", 10), ("/d/x", 9)] {
        let given = folder.run(&["rm", "-r", "card", path]);
        assert!(given.err.ends_with(&format!(" (card: {path})\n")), "{given:?}");
        given.refused(Refusal::number(number));
    }
    folder.run(&["rm", "card", "/d"]).refused(Refusal::number(10));
    assert_eq!((folder.read("card"), fs::metadata(&card).expect("there").modified().expect("a time")), (image, was));
    for bad in bad::all(format) {
        folder.write("card", &bad.image);
        folder.run(&["rm", "-r", "card", "/d"]).refused(bad.refusal);
        assert_eq!(folder.read("card"), bad.image);
    }
}

/// Killed at any moment, all of the save is there or nothing of it.
#[test]
fn killed() {
    let folder = Folder::new();
    let old = build::crowded(Raw);
    let mut new = old.clone();
    remove_all(Raw, &mut new, b"/SAVE07").expect("nothing is locked");
    let words: [&[u8]; 4] = [b"rm", b"-r", b"card", b"/SAVE07"];
    folder.write("card", &old);
    let start = Instant::now();
    folder.feed(&words, b"").done();
    let mut middle = start.elapsed();
    let (mut rng, mut kept, mut gone) = (Rng::new(8), 0, 0);
    for _ in 0..25 {
        folder.write("card", &old);
        let mut child = folder.start(&words);
        sleep(middle * rng.between(500, 1500) as u32 / 1000);
        child.kill().expect("a kill");
        child.wait().expect("an end");
        let image = folder.read("card");
        assert!(image == old || image == new, "a part of the save");
        middle = middle * if image == new { 9 } else { 11 } / 10;
        *(if image == new { &mut gone } else { &mut kept }) += 1;
    }
    println!("{kept} kept, {gone} gone");
    assert!(kept > 4 && gone > 4, "{kept} kept, {gone} gone");
}
