//! The five changes equal the reader's on seeded random cards: a sequence on each, so that cards fill up, fragment
//! and empty.

mod common;

use common::changes::{five, Changes};
use common::flip_each_chunk;
use reader::build::random::random;
use reader::build::requests::random_change;
use reader::build::vandal::vandalised;
use reader::build::{needed, scribble, usual_time};
use reader::rng::Rng;
use reader::tree::Checked;
use reader::{lookup, tree, Change, Format, Tree};

/// Sequences of random changes on random cards.
struct Run {
    changes: Changes,
    /// Changes that left no free cluster, no entry, a new chain with gaps.
    filled: usize,
    emptied: usize,
    scattered: usize,
}

impl Run {
    fn new(format: Format) -> Run {
        Run { changes: Changes::new(format), filled: 0, emptied: 0, scattered: 0 }
    }

    fn sequences(&mut self, seeds: std::ops::Range<u64>) {
        let format = self.changes.format;
        for seed in seeds {
            let card = random(format, seed);
            let mut rng = Rng::new(seed ^ 0xC4A9_6E00);
            let mut image = card.image;
            let mut grows = rng.chance(1, 2);
            for number in 0..if card.layout.clusters < 400 { 60 } else { 12 } {
                let items = tree(format, &image).expect("an accepted card");
                grows = grows || items.len() == 1;
                let change = leaning(&mut rng, &items, grows);
                wear(format, &mut image, &mut rng);
                let what = || format!("random card {seed}, change {number}");
                let answer = self.changes.apply(&mut image, &change, what);
                match answer {
                    Ok(()) => self.look(&image, &change),
                    Err(refusal) => grows = grows && refusal.number != 12,
                }
            }
        }
    }

    /// The card is sound after an accepted change; what it has become is counted.
    fn look(&mut self, image: &[u8], change: &Change) {
        let checked = Checked::of(self.changes.format, image).expect("a change leaves a sound card");
        let names = lookup::names(change.path()).expect("an accepted path");
        let has_gaps = |chain: &[usize]| chain.windows(2).any(|pair| pair[1] != pair[0] + 1);
        self.filled += usize::from(checked.card.free().next().is_none());
        self.emptied +=
            usize::from(change.is_removal() && checked.root.inside.iter().all(|root| root.children.is_empty()));
        self.scattered += usize::from(lookup::locate(&checked.root, &names).is_ok_and(|node| has_gaps(&node.chain)));
    }

    /// Nothing was too rare.
    fn met(&self) {
        self.changes.met([0, 8, 9, 10, 11, 12, 13, 14, 16], 100);
        self.changes.accepted(300);
        let others = [self.filled, self.emptied, self.scattered];
        println!("cards filled, emptied, chains with gaps: {others:?}");
        assert!(others.iter().all(|&times| times >= 50), "{others:?}");
    }
}

/// A random change; on a card that is to grow mostly no removal, on another mostly no creation.
fn leaning(rng: &mut Rng, items: &Tree, grows: bool) -> Change {
    let change = random_change(rng, items);
    let leans_away = if grows { change.is_removal() } else { change.is_creation() };
    match leans_away && rng.chance(3, 4) {
        true => random_change(rng, items),
        false => change,
    }
}

/// Flips and junk spare bytes in raw pages; now and then damage where the check does not look, which in a plain page is
/// other data.
fn wear(format: Format, image: &mut [u8], rng: &mut Rng) {
    let pages = image.len() / format.page_bytes();
    if format == Format::Raw {
        for _ in 0..rng.below(4) {
            let page = rng.below(pages);
            flip_each_chunk(image, page, rng);
            scribble::junk_spare(image, page, rng);
        }
    }
    if rng.chance(1, 5) {
        let page = rng.below(pages);
        if !needed::by_check(format, image).contains(&page) {
            scribble::ruin(format, image, page, rng.below(4), rng);
        }
    }
}

#[test]
fn raw_sequences_first_half() {
    let mut run = Run::new(Format::Raw);
    run.sequences(0..150);
    run.met();
}

#[test]
fn raw_sequences_second_half() {
    let mut run = Run::new(Format::Raw);
    run.sequences(5_000_000..5_000_150);
    run.met();
}

#[test]
fn plain_sequences() {
    let mut run = Run::new(Format::Plain);
    run.sequences(0..150);
    run.met();
}

/// What the check refuses, every change refuses alike, with the image as it was.
#[test]
fn refused_cards() {
    for format in Format::BOTH {
        let mut changes = Changes::new(format);
        for seed in 0..1000 {
            let image = vandalised(format, seed);
            let path = *Rng::new(seed).pick(&[&b"/F"[..], b"/D/x", b"no path", b"/"]);
            let what = || format!("vandalised card {seed}");
            if let Err(refusal) = compare::check(format, &image) {
                for change in five(path, &usual_time(), b"bytes") {
                    let mut copy = image.clone();
                    assert_eq!(changes.apply(&mut copy, &change, what), Err(refusal), "{}", what());
                }
            }
        }
        for tally in &changes.tallies {
            tally.met((1..=7).filter(|&number| format == Format::Raw || number != 2), 10);
        }
    }
}
