//! The five changes on both sides.

use reader::time::Time;
use reader::{Change, Format, Refusal};

use super::Tally;

/// 30 February 2000.
pub const BAD_TIME: Time = [0, 0, 0, 0, 30, 2, 0xD0, 7];

/// The kinds of changes, in the order of `five`.
pub const KINDS: [&str; 5] = ["create", "replace", "delete", "make_dir", "remove_dir"];

/// The numbers of the five, in the same order, 0 for acceptance.
pub type Numbers = [u8; 5];

/// All five changes at a path; time and data go to those that take them.
pub fn five(path: &[u8], time: &Time, data: &[u8]) -> [Change; 5] {
    let (path, data) = (|| path.to_vec(), || data.to_vec());
    [
        Change::Create { path: path(), time: *time, data: data() },
        Change::Replace { path: path(), time: *time, data: data() },
        Change::Delete { path: path() },
        Change::MakeDir { path: path(), time: *time },
        Change::RemoveDir { path: path() },
    ]
}

pub fn kind(change: &Change) -> usize {
    match change {
        Change::Create { .. } => 0,
        Change::Replace { .. } => 1,
        Change::Delete { .. } => 2,
        Change::MakeDir { .. } => 3,
        Change::RemoveDir { .. } => 4,
    }
}

/// Comparisons of the five changes in one format, and how often each answer was met, by kind.
#[derive(Clone, Debug)]
pub struct Changes {
    pub format: Format,
    pub tallies: [Tally; 5],
}

impl Changes {
    pub fn new(format: Format) -> Changes {
        Changes { format, tallies: Default::default() }
    }

    /// Makes a change on both sides: the same answer, and the same image, which is left in `image`.
    pub fn apply(&mut self, image: &mut [u8], change: &Change, what: impl Fn() -> String) -> Result<(), Refusal> {
        let mut readers = image.to_vec();
        let answer = self.apply_to_each(image, &mut readers, change, &what);
        same_image(self.format, image, &readers, || about(change, &what));
        answer
    }

    /// The same with an image for each side; only the answers are compared.
    pub fn apply_to_each(
        &mut self,
        ours: &mut [u8],
        readers: &mut [u8],
        change: &Change,
        what: impl Fn() -> String,
    ) -> Result<(), Refusal> {
        let answer = compare::change::apply(self.format, change, ours);
        let about = || format!("{:?}, {}", self.format, about(change, &what));
        assert_eq!(answer, change.apply(self.format, readers), "library left, reader right: {}", about());
        self.tallies[kind(change)].count(&answer);
        answer
    }

    /// The numbers of all five changes at a path, each on its own copy. A refusal leaves the image as it was.
    pub fn numbers(
        &mut self,
        image: &[u8],
        path: &[u8],
        time: &Time,
        clusters: usize,
        what: impl Fn() -> String,
    ) -> Numbers {
        five(path, time, &vec![1; 1024 * clusters]).map(|change| {
            let mut copy = image.to_vec();
            match self.apply(&mut copy, &change, &what) {
                Ok(()) => 0,
                Err(refusal) => {
                    assert!(copy == image, "a refusal changed the image, {}", about(&change, &what));
                    refusal.number
                }
            }
        })
    }

    /// Each of the answers was met this often, all kinds of changes together.
    pub fn met(&self, answers: impl IntoIterator<Item = usize>, times: usize) {
        let mut all = Tally::default();
        for (name, tally) in KINDS.iter().zip(&self.tallies) {
            println!("{name}: accepted, and refused with 1 to 23: {:?}", tally.seen);
            all.seen.iter_mut().zip(&tally.seen).for_each(|(all, seen)| *all += seen);
        }
        all.met(answers, times);
    }

    /// Each kind of change was accepted this often.
    pub fn accepted(&self, times: usize) {
        for (name, tally) in KINDS.iter().zip(&self.tallies) {
            assert!(tally.seen[0] >= times, "{name} accepted less than {times} times: {:?}", tally.seen);
        }
    }
}

fn about(change: &Change, what: impl Fn() -> String) -> String {
    format!("{} {}, {}", KINDS[kind(change)], change.path().escape_ascii(), what())
}

/// Both images are equal; otherwise the first difference is told.
pub fn same_image(format: Format, ours: &[u8], readers: &[u8], what: impl Fn() -> String) {
    if ours != readers {
        let at = ours.iter().zip(readers).position(|(one, other)| one != other).expect("they are equally long");
        let page = format.page_bytes();
        panic!("the {format:?} images differ first in byte {} of page {}: {}", at % page, at / page, what());
    }
}
