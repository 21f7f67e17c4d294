//! Demand 3 by library and reader on cards with locks: pairs of changes in both orders on copies of one card.

mod common;

use common::changes::{five, Changes};
use common::orders::{are_apart, furnish, Run};
use common::room::{create, delete, drawn_pairs_on, make, replace};
use reader::build::locks::{card, lock, scatter, set_each};
use reader::build::random::random;
use reader::build::usual_time;
use reader::rng::Rng;
use reader::{Change, Format};

/// Pairs of random changes on random cards; each entry lacks its write bit as often as the seed says.
fn random_cards(format: Format, seeds: std::ops::Range<u64>) {
    let mut run = Run::new(format);
    for seed in seeds {
        let mut image = random(format, seed).image;
        let mut rng = Rng::new(seed ^ 0x10C_0D03);
        set_each(format, &mut image, |_| true);
        furnish(format, &mut image, &mut rng, seed % 2 == 0);
        scatter(format, &mut image, 1, [2, 4, 8, 16][seed as usize / 2 % 4], &mut rng);
        let pairs = if image.len() > 400_000 { 4 } else { 30 };
        run.random_pairs(&image, pairs, &mut rng, || format!("random card {seed} with locks"));
    }
    run.met(8);
    met_locks(&run.changes, 1000);
}

/// Each kind of change met a lock, and all together so often.
fn met_locks(changes: &Changes, times: usize) {
    changes.met([16], times);
    changes.tallies.iter().for_each(|tally| tally.met([0, 16], times / 20));
}

#[test]
fn raw_pairs() {
    random_cards(Format::Raw, 0..240);
}

#[test]
fn plain_pairs() {
    random_cards(Format::Plain, 7_000_000..7_000_240);
}

/// Paths of the sample: files, an empty directory in each level, a full one, and names that are new.
const PATHS: [&[u8]; 14] = [
    b"/f", b"/v", b"/w", b"/n", b"/v/n", b"/w/x", b"/w/n", b"/A/f", b"/A/v", b"/A/n", b"/A/n2", b"/A/B/f", b"/A/B/v",
    b"/A/B/n",
];

/// The changes at these paths that nothing but a lock, room or an entry inside can refuse.
fn fitting_changes(clusters: usize) -> Vec<Change> {
    let fitting = |path: &[u8]| -> Vec<Change> {
        let [create, replace, delete, make, remove] = five(path, &usual_time(), &vec![5; 1024 * clusters]);
        match path.strip_suffix(b"2").unwrap_or(path).last() {
            Some(b'f' | b'x') => vec![replace, delete],
            Some(b'n') => vec![create, make],
            _ => vec![remove],
        }
    };
    PATHS.iter().flat_map(|path| fitting(path)).collect()
}

/// All pairs of them, on the sample with random locks; nine clusters are free, or none. Accepted pairs are so many.
fn all_pairs(format: Format, is_full: bool, times: usize) {
    const ROUNDS: usize = 32;
    let mut run = Run::new(format);
    for round in 0..ROUNDS {
        let mut image = card(format, is_full).image;
        // The first rounds are nearly without locks; then there are more and more of them.
        scatter(format, &mut image, round, 2 * ROUNDS, &mut Rng::new(round as u64));
        let changes = fitting_changes(round % if is_full { 2 } else { 9 });
        for (at, one) in changes.iter().enumerate() {
            for other in changes[at + 1..].iter().filter(|other| are_apart(one.path(), other.path())) {
                run.both_orders(&image, &[one.clone(), other.clone()], || format!("round {round}"));
            }
        }
    }
    let accepted: usize = run.accepted.iter().flatten().sum();
    let others = [run.one_order, run.neither, run.creations_refused, run.differed];
    println!("{accepted} pairs accepted in both orders; one order, neither, creations, counts: {others:?}");
    // On a full card no directory grows, whatever the order.
    let expected = if is_full { &others[..3] } else { &others };
    assert!(accepted >= times && expected.iter().all(|&pairs| pairs >= times / 60), "{accepted} {others:?}");
    met_locks(&run.changes, times);
}

#[test]
fn all_raw_pairs() {
    all_pairs(Format::Raw, false, 1200);
}

#[test]
fn all_plain_pairs() {
    all_pairs(Format::Plain, false, 1200);
}

#[test]
fn all_pairs_on_full_cards() {
    Format::BOTH.into_iter().for_each(|format| all_pairs(format, true, 400));
}

/// Pairs drawn by hand on the sample where `/A` and the file `/f` are locked, and in how many orders each is accepted.
#[test]
fn drawn_pairs() {
    let cases = [
        ([create("/n", 1), create("/A/B/n", 1)], 2),
        ([create("/n", 1), create("/A/n", 1)], 0),
        ([make("/A/n"), make("/A/m")], 0),
        ([make("/n"), make("/m")], 2),
        ([delete("/f"), create("/n", 1)], 0),
        ([delete("/w/x"), create("/n", 1)], 2),
        ([delete("/A/f"), delete("/A/B/f")], 0),
        ([replace("/f", 1), replace("/A/B/f", 1)], 0),
        ([replace("/w/x", 1), replace("/A/B/f", 1)], 2),
        // Locked, nobody's clusters become free for the other; else they do, in one order.
        ([delete("/A/f"), create("/w/n", 10)], 0),
        ([delete("/A/B/f"), create("/w/n", 10)], 1),
        ([delete("/A/B/f"), create("/w/n", 11)], 0),
        ([replace("/A/B/f", 0), create("/w/n", 10)], 1),
        ([replace("/A/f", 0), create("/w/n", 10)], 0),
    ];
    for format in Format::BOTH {
        let mut image = card(format, false).image;
        lock(format, &mut image, b"/A");
        lock(format, &mut image, b"/f");
        drawn_pairs_on(format, &image, &cases);
    }
}
