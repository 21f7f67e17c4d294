//! Demand 3 in both formats: two changes, neither path a beginning of the other, in both orders.

use reader::build::random::{listed, random, tight};
use reader::build::requests::random_change;
use reader::paths::{directory_of, is_beginning, parse};
use reader::rng::Rng;
use reader::{check, tree, Change, Format};

/// Runs both changes in turn; the image, and whether both were accepted.
fn run(format: Format, image: &[u8], first: &Change, second: &Change) -> (Vec<u8>, bool) {
    let mut image = image.to_vec();
    let one = first.apply(format, &mut image).is_ok();
    let other = second.apply(format, &mut image).is_ok();
    (image, one && other)
}

fn unrelated(one: &Change, other: &Change) -> bool {
    let (one, other) = (one.path(), other.path());
    parse(one).is_some() && parse(other).is_some() && !is_beginning(one, other) && !is_beginning(other, one)
}

/// A creation and a removal in the same directory: only then may the free counts differ.
fn may_differ(one: &Change, other: &Change) -> bool {
    (one.is_creation() && other.is_removal() || one.is_removal() && other.is_creation())
        && directory_of(one.path()) == directory_of(other.path())
}

#[test]
fn both_orders_agree() {
    let (mut both, mut one_only, mut neither, mut differed) = (0, 0, 0, 0);
    let raw = (0..500).map(|seed| (Format::Raw, seed));
    let plain = (500..700).map(|seed| (Format::Plain, seed));
    let with_tail = (700..800).map(|seed| (Format::BOTH[seed as usize % 2], seed));
    let with_list = (800..950).map(|seed| (Format::BOTH[seed as usize % 2], seed));
    for (format, seed) in raw.chain(plain).chain(with_tail).chain(with_list) {
        let card = match seed {
            0..700 => random(format, seed),
            700..800 => tight(format, seed),
            _ => listed(format, seed),
        };
        let mut rng = Rng::new(seed + 3_000_000);
        let mut image = card.image;
        // Some cards are filled up first, so that room is what decides.
        if seed % 2 == 0 {
            let free = check(format, &image).unwrap().free;
            let keep = rng.below(6);
            let data = vec![0; free.saturating_sub(keep + 1) * 1024];
            let _ = reader::create(format, &mut image, b"/filler", &reader::build::usual_time(), &data);
        }
        let items = tree(format, &image).unwrap();
        let pairs = if image.len() > 400_000 { 3 } else { 15 };
        for _ in 0..pairs {
            let (one, other) = (random_change(&mut rng, &items), random_change(&mut rng, &items));
            if !unrelated(&one, &other) {
                continue;
            }
            let (left, left_done) = run(format, &image, &one, &other);
            let (right, right_done) = run(format, &image, &other, &one);
            let (left_counts, right_counts) = (check(format, &left).unwrap(), check(format, &right).unwrap());
            match (left_done, right_done) {
                (true, true) => both += 1,
                (false, false) => neither += 1,
                _ => one_only += 1,
            }
            if left_done && right_done {
                assert!(
                    tree(format, &left).unwrap() == tree(format, &right).unwrap(),
                    "seed {seed}: {one:?} {other:?}"
                );
                if left_counts.free != right_counts.free {
                    differed += 1;
                    assert!(may_differ(&one, &other), "seed {seed}: {one:?} {other:?}");
                }
            }
            if one.is_creation() && other.is_creation() {
                assert_eq!(left_done, right_done, "seed {seed}: {one:?} {other:?}");
            }
            assert_eq!(left_counts.orphaned, right_counts.orphaned);
        }
    }
    assert!(both > 1000 && neither > 100 && one_only > 10 && differed > 5, "{both} {neither} {one_only} {differed}");
}

/// The pair of document 01: removing first lets the creation use the dead slot.
#[test]
fn free_counts_may_differ_in_one_directory() {
    let time = reader::build::usual_time();
    let create = |name: &[u8]| Change::Create { path: name.to_vec(), time, data: Vec::new() };
    for format in Format::BOTH {
        let mut start = reader::build::bench(format);
        create(b"/A").apply(format, &mut start).unwrap();
        create(b"/C").apply(format, &mut start).unwrap();
        let remove = Change::Delete { path: b"/A".to_vec() };
        let (one, _) = run(format, &start, &remove, &create(b"/B"));
        let (other, _) = run(format, &start, &create(b"/B"), &remove);
        assert_eq!((check(format, &one).unwrap().free, check(format, &other).unwrap().free), (28, 27));
        assert_eq!(tree(format, &one), tree(format, &other));
    }
}
