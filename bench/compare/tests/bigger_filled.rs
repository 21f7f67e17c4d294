//! A card of 65,536 clusters through the five changes: filled to its last cluster by one file, filled by many, emptied.

mod common;

use common::both::{bytes, Both};
use common::lookups::Lookups;
use reader::build::{fresh, Layout};
use reader::card::MOST_CLUSTERS;
use reader::rng::Rng;
use reader::Format;

/// The allocatable clusters of a fresh card.
const ALL: usize = 65_256;

/// The fresh card on each side.
fn fresh_card(format: Format) -> Both {
    assert_eq!(Layout::fresh(MOST_CLUSTERS).alloc_end, ALL);
    Both::new(format, fresh(format, MOST_CLUSTERS))
}

/// Both checks; nothing is ever orphaned here, held back or mended.
fn free(both: &Both) -> usize {
    let counts = both.counts();
    let reached = ALL - counts.free;
    assert_eq!(counts, Layout::fresh(MOST_CLUSTERS).counts(reached));
    counts.free
}

/// One cluster for the root's growth, all others for the file; a byte more is 12.
fn one_file(format: Format) {
    let mut both = fresh_card(format);
    let most = (ALL - 2) * 1024;
    let data = bytes(most + 1);
    assert_eq!(both.create("/A", &data), 12);
    assert_eq!(both.create("/A", &data[..most]), 0);
    assert_eq!(free(&both), 0);
    assert_eq!(
        both.listed(),
        format!("card 65536\nfree 0\nreached {ALL}\norphaned 0\nheld 0\nmended 0\nf {most} /A 2000-02-29 12:34:56\n")
    );

    let mut lookups = Lookups::new(format);
    let mut piece = |offset: usize, size: usize, ours: &[u8]| {
        let (read, buffer) = lookups.read(ours, b"/A", offset, size, || "the greatest file".into());
        let end = most.min(offset + size);
        assert_eq!(read, Ok(end - offset));
        assert!(buffer[..end - offset] == data[offset..end], "{size} bytes from {offset}");
    };
    for (offset, size) in [(0, 700), (most - 1, 9), (most - 1500, 3000), (most, 5), (8192 * 1024 - 3, 2000)] {
        piece(offset, size, &both.ours);
    }

    // The root has a slot left, and no cluster is.
    assert_eq!(both.create("/B", b"x"), 12);
    assert_eq!(both.make_dir("/B"), 12);
    assert_eq!(both.create("/B", b""), 0);
    assert_eq!(both.create("/C", b""), 12);
    assert_eq!(both.replace("/A", b"x"), 12);
    assert_eq!(both.replace("/A", b""), 0);
    assert_eq!(free(&both), ALL - 2);
    assert_eq!(both.replace("/B", &data), 12);
    assert_eq!(both.replace("/B", &data[1..]), 0);
    assert_eq!((free(&both), both.delete("/B"), free(&both)), (0, 0, ALL - 2));
    both.changes.met([0, 12], 3);
}

#[test]
fn one_file_raw() {
    one_file(Format::Raw);
}

#[test]
fn one_file_plain() {
    one_file(Format::Plain);
}

/// Files of several megabytes in three directories until no cluster is free; then all of one directory are deleted,
/// a file takes what they had in pieces, and everything is removed.
fn many_files(format: Format) {
    let mut rng = Rng::new(65_536);
    let mut both = fresh_card(format);
    let directories = ["/D0", "/D1", "/D2"];
    directories.iter().for_each(|path| assert_eq!(both.make_dir(path), 0));
    let mut made = Vec::new();
    while free(&both) > 0 {
        let number = made.len();
        // Every second file of a directory makes it grow.
        let growth = 1 - number / 3 % 2;
        let data = bytes(rng.between(5_000_000, 9_000_000).min((free(&both) - growth) * 1024));
        made.push(format!("{}/file{number}", directories[number % 3]));
        assert_eq!(both.create(&made[number], &data), 0);
    }
    println!("{format:?}: {} files", made.len());
    assert!(made.len() >= 7, "{}", made.len());
    assert_eq!(both.create("/D1/more", b"x"), 12);

    let (gone, rest): (Vec<String>, Vec<String>) = made.into_iter().partition(|path| path.starts_with("/D0"));
    gone.iter().for_each(|path| assert_eq!(both.delete(path), 0));
    let left = free(&both);
    assert_eq!(both.create("/D0/pieces", &bytes(left * 1024 + 1)), 12);
    assert_eq!(both.create("/D0/pieces", &bytes(left * 1024)), 0);
    assert_eq!(free(&both), 0);
    assert_eq!(both.listed().lines().count(), 6 + 3 + rest.len() + 1);

    assert_eq!((both.delete("/D0/pieces"), both.remove_dir("/D1")), (0, 13));
    rest.iter().for_each(|path| assert_eq!(both.delete(path), 0));
    directories.iter().for_each(|path| assert_eq!(both.remove_dir(path), 0));
    // The root keeps its five slots.
    assert_eq!((free(&both), both.listed().lines().count()), (ALL - 3, 6));
}

#[test]
fn many_files_raw() {
    many_files(Format::Raw);
}

#[test]
fn many_files_plain() {
    many_files(Format::Plain);
}
