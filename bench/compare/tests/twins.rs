//! A plain card and a raw one with the same data, whose codes all match: the library gives both the same answers to the
//! same calls, with nothing mended, and leaves them the same data.

mod common;

use common::changes::{five, kind, KINDS};
use common::requests::{random_offset, random_path, random_size, random_slot};
use common::Tally;
use compare::cards::{full, full_great};
use compare::{change, check, find_mended, listing, read_mended, step_mended};
use reader::build::random::{listed, random, tight};
use reader::build::requests::random_change;
use reader::build::scribble::junk_spare;
use reader::build::usual_time;
use reader::build::vandal::vandalised;
use reader::card::clusters_of;
use reader::ecc::{judge, Verdict, CHUNK};
use reader::page::DATA;
use reader::rng::Rng;
use reader::{to_raw, tree, Answer, Change, Format, Refusal, Tree};

/// A raw image and a plain one.
struct Twins {
    raw: Vec<u8>,
    plain: Vec<u8>,
}

impl Twins {
    fn of(plain: Vec<u8>, rng: &mut Rng) -> Twins {
        let mut raw = vec![0; plain.len() / Format::Plain.page_bytes() * Format::Raw.page_bytes()];
        to_raw(&plain, &mut raw).expect("the plain image has a right length");
        let mut twins = Twins { raw, plain };
        (0..twins.pages()).for_each(|page| junk_spare(&mut twins.raw, page, rng));
        twins
    }

    fn pages(&self) -> usize {
        self.plain.len() / Format::Plain.page_bytes()
    }

    /// What a call says of both images.
    fn alike<T: PartialEq + std::fmt::Debug>(&self, call: impl Fn(Format, &[u8]) -> T, what: impl Fn() -> String) -> T {
        let (raw, plain) = (call(Format::Raw, &self.raw), call(Format::Plain, &self.plain));
        assert_eq!(raw, plain, "raw left, plain right: {}", what());
        plain
    }

    /// A change of both; where it is accepted, they are twins again.
    fn change(&mut self, change: &Change, what: impl Fn() -> String) -> Result<(), Refusal> {
        let about = || format!("{} {}, {}", KINDS[kind(change)], change.path().escape_ascii(), what());
        let raw = change::apply(Format::Raw, change, &mut self.raw);
        let plain = change::apply(Format::Plain, change, &mut self.plain);
        assert_eq!(raw, plain, "raw left, plain right: {}", about());
        if plain.is_ok() {
            self.are_twins(about);
        }
        plain
    }

    /// The same data, and every code of the raw image matches.
    fn are_twins(&self, what: impl Fn() -> String) {
        let mut data = vec![0xA5; self.plain.len()];
        assert_eq!(compare::to_plain(&self.raw, &mut data), Ok(()), "{}", what());
        assert!(data == self.plain, "the data differ: {}", what());
        assert!(self.raw.chunks(Format::Raw.page_bytes()).all(has_good_chunks), "a chunk isn't good: {}", what());
    }
}

/// Each chunk of a raw page matches its code.
fn has_good_chunks(page: &[u8]) -> bool {
    let (data, spare) = page.split_at(DATA);
    let mut chunks = data.chunks(CHUNK).zip(spare.chunks(3));
    chunks.all(|(chunk, code)| judge(chunk, [code[0], code[1], code[2]]) == Verdict::Good)
}

/// What an accepted call says beside its count, which is 0.
fn unmended<T>(answer: Answer<T>) -> T {
    assert_eq!(answer.mended, 0);
    answer.value
}

/// How often each answer was met.
#[derive(Default)]
struct Run {
    finds: Tally,
    steps: Tally,
    reads: Tally,
    changes: Tally,
}

impl Run {
    /// One of each call that looks, at a random path, with random other arguments.
    fn look(&mut self, twins: &Twins, items: &Tree, rng: &mut Rng, what: impl Fn() -> String) {
        let counts = twins.alike(check, &what).expect("an accepted card");
        assert_eq!(counts.mended, 0, "{}", what());
        twins.alike(listing::whole, &what);
        let path = random_path(rng, items);
        let found = twins.alike(|format, image| find_mended(format, image, &path).map(unmended), &what);
        self.finds.count(&found);
        let length = found.map_or_else(|_| rng.below(3000) as u32, |entry| entry.length);
        let slot = random_slot(rng, length);
        self.steps.count(&twins.alike(|format, image| step_mended(format, image, &path, slot).map(unmended), &what));
        let offset = random_offset(rng, length as usize);
        let size = random_size(rng, length as usize, offset);
        let buffer = rng.bytes(size);
        let filled = |format, image: &[u8]| {
            let mut buffer = buffer.clone();
            (read_mended(format, image, &path, offset, &mut buffer).map(unmended), buffer)
        };
        self.reads.count(&twins.alike(filled, &what).0);
    }

    /// Looks and changes in turn; what reading ignores is junk before each change.
    fn sequence(&mut self, twins: &mut Twins, steps: usize, rng: &mut Rng, what: impl Fn() -> String) {
        for number in 0..steps {
            let what = || format!("{}, call {number}", what());
            let items = tree(Format::Plain, &twins.plain).expect("an accepted card");
            self.look(twins, &items, rng, what);
            for _ in 0..rng.below(4) {
                let page = rng.below(twins.pages());
                junk_spare(&mut twins.raw, page, rng);
            }
            self.changes.count(&twins.change(&random_change(rng, &items), what));
        }
    }
}

#[test]
fn random_cards() {
    let mut run = Run::default();
    for seed in 0..200 {
        let mut rng = Rng::new(seed ^ 0x7219);
        let card = random(Format::Plain, seed);
        let steps = if card.layout.clusters < 400 { 24 } else { 4 };
        run.sequence(&mut Twins::of(card.image, &mut rng), steps, &mut rng, || format!("random card {seed}"));
    }
    run.finds.met([0, 8, 9, 10], 150);
    run.steps.met([0, 8, 9, 10], 150);
    run.reads.met([0, 8, 9, 10, 15], 150);
    run.changes.met([0, 8, 9, 10, 11, 12, 13, 14, 16], 20);
}

/// Cards with a reserved tail and hardly a free cluster below it.
#[test]
fn tight_cards() {
    let mut run = Run::default();
    for seed in 0..16 {
        let mut rng = Rng::new(seed ^ 0x7217);
        let mut twins = Twins::of(tight(Format::Plain, seed).image, &mut rng);
        run.sequence(&mut twins, 6, &mut rng, || format!("tight card {seed}"));
    }
    run.changes.met([0, 12], 5);
}

/// Cards that list bad blocks, with hardly a free cluster beside them.
#[test]
fn listed_cards() {
    let mut run = Run::default();
    for seed in 0..60 {
        let mut rng = Rng::new(seed ^ 0x721A);
        let mut twins = Twins::of(listed(Format::Plain, seed).image, &mut rng);
        run.sequence(&mut twins, 8, &mut rng, || format!("listed card {seed}"));
    }
    run.changes.met([0, 12], 30);
}

#[test]
fn full_card() {
    let mut rng = Rng::new(2000);
    let mut twins = Twins::of(full(Format::Plain), &mut rng);
    let mut run = Run::default();
    run.sequence(&mut twins, 30, &mut rng, || "full card".into());
    run.changes.met([0], 10);
}

#[test]
fn full_card_of_64_mib() {
    let mut rng = Rng::new(16_000);
    let mut twins = Twins::of(full_great(Format::Plain), &mut rng);
    let mut run = Run::default();
    run.sequence(&mut twins, 3, &mut rng, || "full card of 64 MiB".into());
    run.changes.met([0], 1);
}

/// What the check refuses, every call refuses alike.
#[test]
fn refused_cards() {
    let mut tally = Tally::default();
    for seed in 0..1000 {
        let plain = vandalised(Format::Plain, seed);
        if clusters_of(Format::Plain, plain.len()).is_none() {
            continue;
        }
        let mut rng = Rng::new(seed ^ 0x7218);
        let mut twins = Twins::of(plain, &mut rng);
        let what = || format!("vandalised card {seed}");
        let answer = twins.alike(check, what);
        tally.count(&answer);
        let Err(refusal) = answer else { continue };
        assert_eq!(twins.alike(listing::whole, what), format!("{refusal}\n"), "{}", what());
        let path = *rng.pick(&[&b"/"[..], b"/F", b"/D/x", b"no path"]);
        assert_eq!(twins.alike(|format, image| find_mended(format, image, path), what), Err(refusal), "{}", what());
        assert_eq!(twins.alike(|format, image| step_mended(format, image, path, 2), what), Err(refusal), "{}", what());
        let into_buffer = |format, image: &[u8]| read_mended(format, image, path, 0, &mut [0; 600]);
        assert_eq!(twins.alike(into_buffer, what), Err(refusal), "{}", what());
        for change in five(path, &usual_time(), b"bytes") {
            assert_eq!(twins.change(&change, what), Err(refusal), "{}", what());
        }
        twins.are_twins(what);
    }
    tally.met([0, 3, 4, 5, 6, 7], 15);
}
