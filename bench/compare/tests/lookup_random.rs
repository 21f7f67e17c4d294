//! Find, step and read equal the reader's on seeded random cards and requests.

mod common;

use common::lookups::Lookups;
use common::requests::{random_offset, random_path, random_size, random_slot};
use reader::build::random::random;
use reader::build::vandal::vandalised;
use reader::content::{Item, Piece};
use reader::rng::Rng;
use reader::Format;

/// Requests on random cards; some file pages of raw ones are unreadable.
struct Run {
    lookups: Lookups,
    /// Reads that met an unreadable page, and reads of some bytes beside one.
    met_damage: usize,
    passed_damage: usize,
    /// Reads that filled the buffer, and reads that came to the file's end before.
    filled: usize,
    short: usize,
}

impl Run {
    fn new(format: Format) -> Run {
        Run { lookups: Lookups::new(format), met_damage: 0, passed_damage: 0, filled: 0, short: 0 }
    }

    fn requests(&mut self, seeds: std::ops::Range<u64>) {
        for seed in seeds {
            let card = random(self.lookups.format, seed);
            let mut rng = Rng::new(seed ^ 0x100C);
            let is_damaged = |item: &Item| item.pieces.iter().any(|piece| matches!(piece, Piece::Unreadable { .. }));
            let damaged: Vec<&Vec<u8>> =
                card.tree.iter().filter(|(_, item)| is_damaged(item)).map(|(path, _)| path).collect();
            let requests = if card.layout.clusters < 1000 { 40 } else { 10 };
            for request in 0..requests {
                let what = || format!("random card {seed}, request {request}");
                let path = match damaged.is_empty() || rng.chance(7, 8) {
                    true => random_path(&mut rng, &card.tree),
                    false => rng.pick(&damaged).to_vec(),
                };
                let found = self.lookups.find(&card.image, &path, what);
                let length = found.map_or_else(|_| rng.below(3000) as u32, |entry| entry.length);

                let slot = random_slot(&mut rng, length);
                self.lookups.step(&card.image, &path, slot, what).ok();

                let offset = random_offset(&mut rng, length as usize);
                let size = random_size(&mut rng, length as usize, offset);
                let (read, _) = self.lookups.read(&card.image, &path, offset, size, what);

                let of_damaged = damaged.contains(&&path);
                match read {
                    Ok(count) => {
                        self.passed_damage += usize::from(of_damaged && count > 0);
                        self.filled += usize::from(count > 0 && count == size);
                        self.short += usize::from(count < size);
                    }
                    Err(refusal) => {
                        assert!(of_damaged || refusal.number != 2, "{}: the file has no unreadable page", what());
                        self.met_damage += usize::from(refusal.number == 2);
                    }
                }
            }
        }
    }

    /// None of the answers was too rare.
    fn met(&self) {
        self.lookups.finds.met([0, 8, 9, 10], 500);
        self.lookups.steps.met([0, 8, 9, 10], 500);
        self.lookups.reads.met([0, 8, 9, 10, 15], 300);
        let others = [self.lookups.ends, self.filled, self.short];
        println!("ends, buffers filled and not: {others:?}");
        assert!(others.iter().all(|&times| times >= 300), "{others:?}");
        let damage = [self.met_damage, self.passed_damage];
        println!("damage met and passed: {damage:?}");
        match self.lookups.format {
            Format::Raw => assert!(damage.iter().all(|&times| times >= 300), "{damage:?}"),
            Format::Plain => assert_eq!(damage, [0, 0]),
        }
    }
}

#[test]
fn raw_cards_first_half() {
    let mut run = Run::new(Format::Raw);
    run.requests(0..350);
    run.met();
}

#[test]
fn raw_cards_second_half() {
    let mut run = Run::new(Format::Raw);
    run.requests(2_000_000..2_000_350);
    run.met();
}

#[test]
fn plain_cards() {
    let mut run = Run::new(Format::Plain);
    run.requests(0..350);
    run.met();
}

/// What the check refuses, the three calls refuse alike, whatever the path.
#[test]
fn refused_cards() {
    for format in Format::BOTH {
        let mut lookups = Lookups::new(format);
        for seed in 0..1500 {
            let image = vandalised(format, seed);
            let path = *Rng::new(seed).pick(&[&b"/"[..], b"/F", b"/D/x", b"no path", b""]);
            let what = || format!("vandalised card {seed}");
            if let Err(refusal) = compare::check(format, &image) {
                lookups.refused(&image, path, refusal, what);
            }
        }
        for calls in [&lookups.finds, &lookups.steps, &lookups.reads] {
            calls.met((1..=7).filter(|&number| format == Format::Raw || number != 2), 15);
        }
    }
}
