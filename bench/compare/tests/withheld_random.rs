//! Seeded random changes where the reserved tail or the bad block list decides: hardly a cluster outside is free, while
//! many inside are. Sequences of them, and pairs in both orders for demand 3.

mod common;

use common::both::Both;
use common::changes::Changes;
use common::orders::Run;
use common::room::{create, delete, drawn_pairs_on, make, node, replace, up_to_room};
use common::{flip_each_chunk, mend};
use reader::build::locks;
use reader::build::needed;
use reader::build::random::{listed, tight, RandomCard};
use reader::build::requests::random_change;
use reader::build::scribble;
use reader::build::withheld::samples;
use reader::card::Card;
use reader::rng::Rng;
use reader::tree::Checked;
use reader::{lookup, tree, Change, Counts, Format, Refusal};

/// Random cards of one kind, which clusters are withheld on them, and how much must be met at least.
struct Kind {
    name: &'static str,
    card: fn(Format, u64) -> RandomCard,
    is_withheld: fn(&Card, usize) -> bool,
    /// In sequences: 0 and 12, changes accepted and unreadable pages met by each of the five, each number of `Met`.
    answers: usize,
    accepted: usize,
    unreadable: usize,
    met: usize,
    /// Changes that took a cluster behind one that is held back.
    stepped_over: std::ops::RangeInclusive<usize>,
    /// Pairs accepted in both orders.
    pairs: usize,
}

impl Kind {
    /// A card of the kind without locks, so that room is what decides.
    fn unlocked(&self, format: Format, seed: u64) -> RandomCard {
        let mut card = (self.card)(format, seed);
        locks::set_each(format, &mut card.image, |_| true);
        card
    }
}

const TAIL: Kind = Kind {
    name: "tight card",
    card: tight,
    is_withheld: |_, cluster| cluster >= 8000,
    answers: 50,
    accepted: 4,
    unreadable: 1,
    met: 5,
    // Nothing lies behind the tail.
    stepped_over: 0..=0,
    pairs: 30,
};

const LIST: Kind = Kind {
    name: "listed card",
    card: listed,
    is_withheld: Card::is_bad,
    answers: 200,
    accepted: 100,
    unreadable: 20,
    met: 30,
    stepped_over: 30..=usize::MAX,
    pairs: 300,
};

/// What a sequence met, beside the answers.
#[derive(Debug, Default)]
struct Met {
    /// Refusals with 12 where the withheld clusters would have had room.
    refused: usize,
    /// Changes after which more is held back, and such that freed clusters on both sides.
    freed_there: usize,
    freed_on_both_sides: usize,
    /// New entries in a withheld cluster, in a dead slot and behind the last one.
    dead_slots: usize,
    last_slots: usize,
    /// Changes that took the last free cluster.
    filled: usize,
    /// Changes that took a cluster behind one that is held back.
    stepped_over: usize,
}

impl Met {
    fn refused(&mut self, before: &Counts, change: &Change) {
        let needed = match change {
            Change::Create { data, .. } | Change::Replace { data, .. } => data.len().div_ceil(1024) + 1,
            _ => 2,
        };
        self.refused += usize::from(needed <= before.free + before.held);
    }

    fn accepted(&mut self, kind: &Kind, old: &Checked, new: &Checked, change: &Change) {
        let (before, after) = (old.counts(), new.counts());
        self.freed_there += usize::from(after.held > before.held);
        self.freed_on_both_sides +=
            usize::from(change.is_removal() && after.held > before.held && after.free > before.free);
        self.filled += usize::from(before.free > 0 && after.free == 0);
        let is_free = |checked: &Checked, cluster: usize| checked.card.table[cluster] >> 31 == 0;
        let last_taken = (0..old.card.alloc_end).rfind(|&at| is_free(old, at) && !is_free(new, at));
        self.stepped_over +=
            usize::from(last_taken.is_some_and(|last| (0..last).any(|at| is_free(new, at) && is_free(old, at))));
        if change.is_creation() {
            let names = lookup::names(change.path()).expect("an accepted path");
            let around = |checked: &Checked| node(checked, &names[..names.len() - 1]).entry.length;
            let cluster = node(new, &names).page / 2 - new.card.alloc_offset;
            let is_there = (kind.is_withheld)(&new.card, cluster);
            let is_dead_slot = around(old) == around(new);
            self.dead_slots += usize::from(is_there && is_dead_slot);
            self.last_slots += usize::from(is_there && !is_dead_slot);
        }
    }
}

/// Flips in three raw pages, one of them needed; damage in one that the check does not need. Withheld pages come more
/// often than others.
fn wear(format: Format, image: &mut [u8], needed: &[usize], withheld: &[usize], rng: &mut Rng) {
    let pages = image.len() / format.page_bytes();
    let draw = |rng: &mut Rng| match withheld {
        [_, ..] if rng.chance(1, 2) => *rng.pick(withheld),
        _ => rng.below(pages),
    };
    if format == Format::Raw {
        for page in [draw(rng), draw(rng), *rng.pick(needed)] {
            flip_each_chunk(image, page, rng);
        }
    }
    let page = draw(rng);
    if rng.chance(1, 2) && !needed.contains(&page) {
        scribble::ruin(format, image, page, rng.below(4), rng);
    }
}

fn sequences(kind: &Kind, format: Format, seeds: std::ops::Range<u64>) {
    let mut changes = Changes::new(format);
    let mut met = Met::default();
    for seed in seeds {
        let card = kind.unlocked(format, seed);
        let mut rng = Rng::new(seed ^ 0xBAD_C4A9);
        let mut both = Both::new(format, card.image);
        both.changes = changes;
        let steps = if card.layout.clusters < 8192 { 16 } else { 8 };
        for number in 0..steps {
            let old = Checked::of(format, &both.ours).expect("an accepted card");
            let items = tree(format, &both.ours).expect("an accepted card");
            let change = if rng.chance(1, 6) { random_change(&mut rng, &items) } else { up_to_room(&mut rng, &items) };
            let needed = needed::by_check(format, &both.ours);
            let withheld = (0..old.card.alloc_end).filter(|&cluster| (kind.is_withheld)(&old.card, cluster));
            let withheld: Vec<usize> =
                withheld.flat_map(|cluster| [0, 1].map(|at| old.card.page(cluster, at))).collect();
            both.alter(|image| wear(format, image, &needed, &withheld, &mut rng));
            both.about = format!("{} {seed}, change {number}", kind.name);
            let before = both.ours.clone();
            if format == Format::Raw && rng.chance(1, 6) {
                let page = *rng.pick(&needed);
                let mut image = before.clone();
                mend(&mut image, page);
                scribble::break_page(format, &mut image, page);
                let answer = both.changes.apply(&mut image, &change, || both.about.clone());
                assert_eq!(answer, Err(Refusal::unreadable(page)), "{}", both.about);
            }
            match both.apply(&change) {
                0 => {
                    let new = Checked::of(format, &both.ours).expect("a change leaves a sound card");
                    met.accepted(kind, &old, &new, &change);
                    assert_eq!(both.counts(), new.counts(), "{}", both.about);
                    let Counts { free, reached, orphaned, held, .. } = new.counts();
                    assert_eq!(free + reached + orphaned + held, card.layout.alloc_end, "{}", both.about);
                    assert!(held >= old.counts().held, "something held back was taken, {}", both.about);
                    assert_eq!(orphaned, card.counts.orphaned, "{}", both.about);
                }
                number => {
                    assert!(both.ours == before, "a refusal changed the image, {}", both.about);
                    if number == 12 {
                        met.refused(&old.counts(), &change);
                    }
                }
            }
        }
        changes = both.changes;
    }
    println!("{}, {format:?}: {met:?}", kind.name);
    changes.met([0, 12], kind.answers);
    changes.accepted(kind.accepted);
    assert!(format == Format::Plain || changes.tallies.iter().all(|tally| tally.seen[2] >= kind.unreadable));
    let Met { refused, freed_there, freed_on_both_sides, dead_slots, last_slots, filled, stepped_over } = met;
    let all = [refused, freed_there, freed_on_both_sides, dead_slots, last_slots, filled];
    assert!(all.iter().all(|&times| times >= kind.met), "{all:?}");
    assert!(kind.stepped_over.contains(&stepped_over), "{stepped_over}");
}

#[test]
fn tail_sequences() {
    sequences(&TAIL, Format::Raw, 0..40);
    sequences(&TAIL, Format::Plain, 1000..1040);
}

#[test]
fn list_sequences() {
    sequences(&LIST, Format::Raw, 0..160);
    sequences(&LIST, Format::Plain, 1000..1160);
}

fn pairs(kind: &Kind, format: Format, seeds: std::ops::Range<u64>) {
    let mut run = Run::new(format);
    for seed in seeds {
        let card = kind.unlocked(format, seed);
        let pairs = if card.layout.clusters < 8192 { 12 } else { 4 };
        let about = || format!("{} {seed}", kind.name);
        run.pairs_up_to_room(&card.image, pairs, &mut Rng::new(seed ^ 0xBAD_0D03), about);
    }
    run.room_decided(kind.pairs);
}

#[test]
fn tail_pairs() {
    pairs(&TAIL, Format::Raw, 0..20);
    pairs(&TAIL, Format::Plain, 2000..2020);
}

#[test]
fn list_pairs() {
    pairs(&LIST, Format::Raw, 3000..3100);
    pairs(&LIST, Format::Plain, 4000..4100);
}

/// Pairs on each sample with three clusters free: in how many orders each is accepted to its end, 0, 1 or 2.
#[test]
fn drawn_pairs() {
    let cases = [
        // Withheld slots take one entry each; two clusters and one are what is free, or one too many.
        ([create("/HALF/a", 2), create("/DEAD/a", 1)], 2),
        ([create("/HALF/a", 2), create("/DEAD/a", 2)], 0),
        ([create("/HALF/a", 1), create("/HALF/b", 1)], 2),
        ([create("/HALF/a", 1), create("/HALF/b", 2)], 0),
        ([make("/FULL/a"), create("/new", 1)], 2),
        ([make("/FULL/a"), create("/new", 2)], 0),
        ([make("/FULL/a"), make("/FULL/b")], 2),
        ([make("/a"), make("/b")], 2),
        // Old clusters that are withheld never help the other change; others do, in one order.
        ([replace("/INSIDE", 2), create("/HALF/a", 1)], 2),
        ([replace("/INSIDE", 2), create("/HALF/a", 2)], 0),
        ([delete("/INSIDE"), create("/HALF/a", 4)], 0),
        ([delete("/SPLIT"), create("/HALF/a", 5)], 1),
        ([delete("/SPLIT"), create("/HALF/a", 6)], 0),
        ([replace("/SPLIT", 1), create("/HALF/a", 4)], 1),
        ([replace("/SPLIT", 1), create("/HALF/a", 5)], 0),
        ([replace("/SPLIT", 3), replace("/INSIDE", 2)], 1),
        ([delete("/SPLIT"), delete("/INSIDE")], 2),
        // A withheld dead slot is used, or the directory grows, as the order has it.
        ([delete("/DEAD/x"), create("/DEAD/a", 3)], 2),
        ([delete("/HALF/x"), create("/HALF/a", 3)], 2),
        ([delete("/FULL/x"), create("/FULL/a", 2)], 2),
        ([delete("/FULL/x"), create("/FULL/a", 3)], 1),
        ([delete("/FULL/x"), create("/FULL/a", 4)], 0),
    ];
    for (format, sample) in samples() {
        let run = drawn_pairs_on(format, &sample.card(format, &sample.free).finish(), &cases);
        // Only `/FULL` grows in one order and not in the other.
        assert_eq!(run.differed, 1);
    }
}
