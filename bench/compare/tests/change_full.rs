//! The full card PCSX2 wrote, and its plain twin, through the five changes: filled to the last cluster below the tail,
//! emptied, filled again; random changes on it.

mod common;

use common::changes::{same_image, Changes};
use compare::cards::full;
use reader::build::requests::random_change;
use reader::build::usual_time;
use reader::content::visit;
use reader::paths::join;
use reader::rng::Rng;
use reader::tree::Checked;
use reader::{tree, Change, Counts, Format, Refusal};

/// A card on each side; the two are compared every few changes.
struct Both {
    ours: Vec<u8>,
    readers: Vec<u8>,
    changes: Changes,
    made: usize,
}

impl Both {
    fn new(format: Format) -> Both {
        let image = full(format);
        Both { readers: image.clone(), ours: image, changes: Changes::new(format), made: 0 }
    }

    fn format(&self) -> Format {
        self.changes.format
    }

    fn apply(&mut self, change: &Change) -> Result<(), Refusal> {
        let what = || format!("full card, change {}", self.made);
        let answer = self.changes.apply_to_each(&mut self.ours, &mut self.readers, change, what);
        self.made += 1;
        if self.made.is_multiple_of(16) {
            self.compare();
        }
        answer
    }

    fn compare(&self) {
        same_image(self.format(), &self.ours, &self.readers, || format!("full card, after change {}", self.made));
    }

    fn counts(&self) -> Counts {
        compare::check(self.format(), &self.ours).expect("an accepted card")
    }

    /// Creates files in these directories, smaller ones where no greater one fits, until no cluster is free.
    /// Each of them can be read back.
    fn fill(&mut self, rng: &mut Rng, directories: &[Vec<u8>]) -> usize {
        let mut most = 150_000;
        let mut files = Vec::new();
        while self.counts().free > 0 {
            let directory: &Vec<u8> = rng.pick(directories);
            let path = join(directory, format!("fill{}", files.len()).as_bytes());
            let length = rng.between(1, most);
            let data = rng.bytes(length);
            match self.apply(&Change::Create { path: path.clone(), time: usual_time(), data: data.clone() }) {
                Ok(()) => files.push((path, data)),
                Err(refusal) => {
                    assert_eq!(refusal, Refusal::number(12));
                    most = (most / 2).max(1000);
                }
            }
        }
        self.compare();
        for (path, data) in &files {
            let mut buffer = vec![0; data.len() + 1];
            assert_eq!(compare::read(self.format(), &self.ours, path, 0, &mut buffer), Ok(data.len()));
            assert!(buffer[..data.len()] == data[..], "{}", path.escape_ascii());
        }
        files.len()
    }

    /// Deletes every file and removes every directory, from the last to the first in tree order.
    fn empty(&mut self) -> usize {
        let mut nodes = Vec::new();
        let checked = Checked::of(self.format(), &self.ours).expect("an accepted card");
        visit(&checked.root, b"/", &mut |path, node| nodes.push((path.to_vec(), node.inside.is_some())));
        for (path, is_directory) in nodes.drain(1..).rev() {
            let change = if is_directory { Change::RemoveDir { path } } else { Change::Delete { path } };
            assert_eq!(self.apply(&change), Ok(()), "{change:?}");
        }
        self.compare();
        assert_eq!(tree(self.format(), &self.ours).map(|items| items.len()), Ok(1));
        self.changes.tallies[2].seen[0]
    }

    /// Random changes; a tree serves for a few of them.
    fn random(&mut self, rng: &mut Rng, count: usize) {
        for _ in 0..count / 5 {
            let items = tree(self.format(), &self.ours).expect("an accepted card");
            for _ in 0..5 {
                self.apply(&random_change(rng, &items)).ok();
            }
        }
        self.compare();
    }
}

fn filled_emptied_and_filled_again(format: Format) {
    let mut rng = Rng::new(8135);
    let mut both = Both::new(format);
    let directories: Vec<Vec<u8>> = (0..40).map(|number| format!("/SAVE{number:02}").into_bytes()).collect();
    let first = both.fill(&mut rng, &directories);
    let deleted = both.empty();
    assert_eq!(deleted, 2000 + first);
    // The root keeps its 42 slots; all else is free again.
    assert_eq!(
        both.counts(),
        Counts { clusters: 8192, free: 8000 - 21, reached: 21, orphaned: 0, held: 135, mended: 0 }
    );
    let second = both.fill(&mut rng, &[b"/".to_vec()]);
    println!("{first} files created, {deleted} deleted, {second} created");
    assert!(first >= 50 && second >= 100, "{first} {second}");
}

#[test]
fn filled_emptied_and_filled_again_raw() {
    filled_emptied_and_filled_again(Format::Raw);
}

#[test]
fn filled_emptied_and_filled_again_plain() {
    filled_emptied_and_filled_again(Format::Plain);
}

/// First with much room, then with hardly any.
fn random_changes(format: Format) {
    let mut rng = Rng::new(3676);
    let mut both = Both::new(format);
    both.random(&mut rng, 200);
    let data = vec![0xA5; (both.counts().free - 4) * 1024];
    let path = b"/SAVE07/filler".to_vec();
    assert_eq!(both.apply(&Change::Create { path, time: usual_time(), data }), Ok(()));
    both.random(&mut rng, 200);
    both.changes.met([0, 8, 9, 10, 11, 12, 13, 14], 3);
    both.changes.accepted(5);
}

#[test]
fn random_changes_raw() {
    random_changes(Format::Raw);
}

#[test]
fn random_changes_plain() {
    random_changes(Format::Plain);
}
