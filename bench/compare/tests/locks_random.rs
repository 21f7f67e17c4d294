//! Sequences of random changes by library and reader on random cards whose modes are drawn anew between them, and full
//! cards, where 12 meets 16.

mod common;

use common::both::Both;
use common::changes::Changes;
use compare::cards::{bench_sample, full};
use reader::build::locks::{lock, scatter, set_each};
use reader::build::random::{listed, random, tight, RandomCard};
use reader::build::requests::random_change;
use reader::paths::directory_of;
use reader::rng::Rng;
use reader::{tree, Change, Format, Tree};

/// By the tree alone: what stands at the path, or the directory around it, lacks the write bit.
fn is_locked(items: &Tree, change: &Change) -> bool {
    let path = change.path();
    [path, directory_of(path)].iter().any(|&place| items.get(place).is_some_and(|item| item.mode & 2 == 0))
}

/// 16 is given for a lock alone, and where there is one, a change is neither accepted nor refused for want of room.
fn agrees(number: u8, items: &Tree, change: &Change, what: &str) {
    match number {
        16 => assert!(is_locked(items, change), "16 without a lock, {change:?}, {what}"),
        0 | 12 => assert!(!is_locked(items, change), "{number} in spite of a lock, {change:?}, {what}"),
        _ => {}
    }
}

/// A random card of any kind.
fn random_card(format: Format, seed: u64) -> RandomCard {
    match seed % 20 {
        0 => tight(format, seed),
        1..=5 => listed(format, seed),
        _ => random(format, seed),
    }
}

/// A sequence on each card. All write bits are drawn anew now and then; on every second card a file takes all but a few
/// free clusters first.
fn sequences(format: Format, seeds: std::ops::Range<u64>) {
    let mut changes = Changes::new(format);
    for seed in seeds {
        let card = random_card(format, seed);
        let mut rng = Rng::new(seed ^ 0x10C_5E9);
        let mut both = Both::new(format, card.image);
        both.changes = changes;
        if seed % 2 == 0 {
            both.alter(|image| set_each(format, image, |_| true));
            let data = vec![0; both.counts().free.saturating_sub(rng.between(1, 4)) * 1024];
            both.create("/filler", &data);
        }
        for number in 0..if card.layout.clusters < 400 { 40 } else { 8 } {
            if number % 8 == 0 {
                let whole = rng.between(2, 12);
                both.alter(|image| scatter(format, image, 1, whole, &mut rng));
            }
            both.about = format!("random card {seed}, change {number}");
            let items = tree(format, &both.ours).expect("an accepted card");
            let change = random_change(&mut rng, &items);
            let before = both.ours.clone();
            let answer = both.apply(&change);
            assert_eq!(answer == 0, both.ours != before, "{}", both.about);
            agrees(answer, &items, &change, &both.about);
        }
        changes = both.changes;
    }
    changes.met([0, 8, 9, 10, 11, 12, 13, 14, 16], 60);
    changes.accepted(100);
    changes.tallies.iter().for_each(|tally| tally.met([16], 40));
}

#[test]
fn raw_sequences() {
    sequences(Format::Raw, 0..160);
}

#[test]
fn plain_sequences() {
    sequences(Format::Plain, 3_000_000..3_000_160);
}

/// PCSX2's full card, filled to its last cluster. `/SAVE00` is locked, and in `/SAVE01` a file.
#[test]
fn filled_card() {
    for format in Format::BOTH {
        let image = full(format);
        let items = tree(format, &image).expect("PCSX2's card is accepted");
        let inside = |save: &str| -> String {
            let names = items.iter().filter(|(_, item)| !item.is_directory).map(|(path, _)| path);
            let paths = names.map(|path| String::from_utf8(path.clone()).expect("names are ASCII"));
            paths.into_iter().find(|path| path.starts_with(&format!("{save}/"))).expect("each save has files")
        };
        let [locked_around, locked, open] = ["/SAVE00", "/SAVE01", "/SAVE02"].map(inside);
        let mut both = Both::new(format, image);
        // The root grows by a cluster; what is left after that takes one file.
        assert_eq!(both.create("/first", b""), 0);
        let free = both.counts().free;
        assert_eq!(both.create("/second", &vec![9; 1024 * free]), 0);
        assert_eq!(both.counts().free, 0);
        assert_eq!(
            (both.make_dir("/SAVE00/n"), both.replace(&locked_around, b"x"), both.replace(&locked, b"x")),
            (12, 12, 12)
        );
        both.alter(|image| {
            lock(format, image, b"/SAVE00");
            lock(format, image, locked.as_bytes());
        });
        assert_eq!((both.make_dir("/SAVE00/n"), both.create("/SAVE00/n", b"x")), (16, 16));
        assert_eq!((both.make_dir("/SAVE01/n"), both.create("/SAVE01/n", b"x")), (12, 12));
        assert_eq!((both.replace(&locked_around, b"x"), both.replace(&locked_around, b"")), (16, 16));
        assert_eq!((both.replace(&locked, b"x"), both.replace(&open, b"x")), (16, 12));
        assert_eq!((both.delete(&locked_around), both.delete(&locked)), (16, 16));
        both.alter(|image| lock(format, image, b"/"));
        assert_eq!((both.create("/n", b"x"), both.make_dir("/n"), both.delete("/second")), (16, 16, 16));
        // The root's lock hinders nothing in `/SAVE02`, where a slot is dead now and a cluster free.
        assert_eq!((both.delete(&open), both.make_dir("/SAVE02/n")), (0, 0));
        assert_eq!((both.remove_dir("/SAVE00"), both.remove_dir("/SAVE02/n")), (13, 0));
    }
}

/// The small card PCSX2 wrote: its entries have the bit, so that each change is accepted until it is cleared.
#[test]
fn small_card() {
    for format in Format::BOTH {
        let image = bench_sample(format);
        let items = tree(format, &image).expect("PCSX2's card is accepted");
        assert!(items.values().all(|item| item.mode & 2 == 2));
        for (path, item) in items.iter().filter(|(path, _)| *path != b"/") {
            let path = std::str::from_utf8(path).expect("names are ASCII");
            let has_inside = items.keys().any(|other| other.starts_with(format!("{path}/").as_bytes()));
            for (place, expected) in [(None, 0), (Some(path.as_bytes()), 16), (Some(directory_of(path.as_bytes())), 16)]
            {
                let mut both = Both::new(format, image.clone());
                place.iter().for_each(|place| both.alter(|image| lock(format, image, place)));
                let answers = match item.is_directory {
                    true => vec![both.remove_dir(path)],
                    false => vec![both.replace(path, b"new"), both.delete(path)],
                };
                let expected = if item.is_directory && has_inside { 13 } else { expected };
                assert!(answers.iter().all(|&answer| answer == expected), "{path}: {answers:?}, not {expected}");
            }
        }
    }
}
