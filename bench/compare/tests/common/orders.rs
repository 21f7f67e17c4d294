//! Demand 3 on both sides: two changes, neither path a beginning of the other, in both orders on copies of one card.

use reader::build::requests::random_change;
use reader::build::usual_time;
use reader::paths::{depth, directory_of, is_beginning, parse};
use reader::rng::Rng;
use reader::{tree, Change, Format, Tree};

use super::changes::{kind, same_image, Changes, KINDS};

/// Pairs of changes, and what became of them.
pub struct Run {
    pub changes: Changes,
    /// Pairs accepted to the end in both orders, by the kinds of the two, the lower one first.
    pub accepted: [[usize; 5]; 5],
    /// Pairs accepted to the end in one order alone, and in neither; the latter of two creations.
    pub one_order: usize,
    pub neither: usize,
    pub creations_refused: usize,
    /// Pairs whose orders leave different free counts.
    pub differed: usize,
    /// Pairs accepted to the end in both orders whose paths have five names or more.
    pub deep: usize,
}

impl Run {
    pub fn new(format: Format) -> Run {
        Run {
            changes: Changes::new(format),
            accepted: Default::default(),
            one_order: 0,
            neither: 0,
            creations_refused: 0,
            differed: 0,
            deep: 0,
        }
    }

    /// So many random pairs, each on copies of the image.
    pub fn random_pairs(&mut self, image: &[u8], count: usize, rng: &mut Rng, what: impl Fn() -> String) {
        let items = tree(self.changes.format, image).expect("an accepted card");
        for number in 0..count {
            if let Some(pair) = random_pair(rng, &items) {
                self.both_orders(image, &pair, || format!("{}, pair {number}", what()));
            }
        }
    }

    /// Both orders on copies of the image, by both sides; what demand 3 says of them.
    pub fn both_orders(&mut self, image: &[u8], [one, other]: &[Change; 2], what: impl Fn() -> String) {
        let format = self.changes.format;
        let (left, left_done) = self.in_turn(image, [one, other], &what);
        let (right, right_done) = self.in_turn(image, [other, one], &what);
        let about = || format!("{}: {one:?} {other:?}", what());
        let creations = one.is_creation() && other.is_creation();
        assert!(!creations || left_done == right_done, "one order alone is accepted to its end, {}", about());
        match (left_done, right_done) {
            (true, true) => {
                assert!(tree(format, &left) == tree(format, &right), "the trees differ, {}", about());
                let free = |image: &[u8]| compare::check(format, image).expect("changes leave a sound card").free;
                if free(&left) != free(&right) {
                    assert!(may_differ(one, other), "the free counts differ, {}", about());
                    self.differed += 1;
                }
                let (low, high) = (kind(one).min(kind(other)), kind(one).max(kind(other)));
                self.accepted[low][high] += 1;
                self.deep += usize::from(depth(one.path()).min(depth(other.path())) >= 5);
            }
            (false, false) => {
                self.neither += 1;
                self.creations_refused += usize::from(creations);
            }
            _ => self.one_order += 1,
        }
    }

    /// Both changes in turn on a copy; the second gets the image as the first left it. Whether both were accepted.
    fn in_turn(&mut self, image: &[u8], order: [&Change; 2], what: impl Fn() -> String) -> (Vec<u8>, bool) {
        let (mut ours, mut readers) = (image.to_vec(), image.to_vec());
        let answers = order.map(|change| {
            let answer = self.changes.apply_to_each(&mut ours, &mut readers, change, &what);
            same_image(self.changes.format, &ours, &readers, || format!("{}, {change:?}", what()));
            answer
        });
        (ours, answers.iter().all(Result::is_ok))
    }

    /// Nothing was rarer than this.
    pub fn met(&self, times: usize) {
        for (low, counts) in self.accepted.iter().enumerate() {
            for (high, &pairs) in counts.iter().enumerate().skip(low) {
                println!("{} and {}: {pairs} accepted in both orders", KINDS[low], KINDS[high]);
                assert!(pairs >= times, "{} and {}: only {pairs}", KINDS[low], KINDS[high]);
            }
        }
        let others = [self.one_order, self.neither, self.creations_refused, self.differed, self.deep];
        println!("accepted in one order, in neither, creations in neither, free counts that differ, deep: {others:?}");
        assert!(others.iter().all(|&pairs| pairs >= times), "{others:?}");
    }
}

/// Some empty directories, where there is room; on a tight card a file takes all but a few free clusters, so that
/// room is what decides.
pub fn furnish(format: Format, image: &mut [u8], rng: &mut Rng, is_tight: bool) {
    for path in [&b"/empty"[..], b"/empty/one", b"/empty/two", b"/hollow"] {
        reader::make_dir(format, image, path, &usual_time()).ok();
    }
    if is_tight {
        let free = compare::check(format, image).expect("an accepted card").free;
        let data = vec![0; free.saturating_sub(rng.below(7) + 1) * 1024];
        reader::create(format, image, b"/filler", &usual_time(), &data).ok();
    }
}

/// Two changes at paths apart, often in one directory.
fn random_pair(rng: &mut Rng, items: &Tree) -> Option<[Change; 2]> {
    let one = random_change(rng, items);
    let is_near = rng.chance(1, 3);
    let others = (0..10).map(|_| random_change(rng, items));
    let other = others
        .filter(|other| are_apart(one.path(), other.path()))
        .find(|other| !is_near || directory_of(one.path()) == directory_of(other.path()))?;
    Some([one, other])
}

/// Both paths are well formed, and neither is a beginning of the other.
pub fn are_apart(one: &[u8], other: &[u8]) -> bool {
    parse(one).is_some() && parse(other).is_some() && !is_beginning(one, other) && !is_beginning(other, one)
}

/// One creates, the other removes, both in the same directory: only then may the free counts differ.
fn may_differ(one: &Change, other: &Change) -> bool {
    (one.is_creation() && other.is_removal() || one.is_removal() && other.is_creation())
        && directory_of(one.path()) == directory_of(other.path())
}
