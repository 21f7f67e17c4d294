//! Names picked against the way in which the library tells twins: names that looked alike to its first filter, so that
//! a directory full of them took time with the square of their number, and names that meet in the cells it has now.
//!
//! How it tells twins is the library's own affair; such cards keep their answers, and take the time of any other.

mod common;

use std::time::Duration;

use common::same;
use compare::cards::{files_in_root, Names};
use compare::checks::Check;
use compare::clock::times;
use reader::build::Layout;
use reader::rng::Rng;
use reader::{Format, Refusal};

const FILES: usize = 200;

/// That filter's number of a name; its remainder by 4,096 picked the filter's word.
fn number(name: &[u8]) -> u64 {
    name.iter().fold(0, |number, &byte| (number + u64::from(byte)) * 6_017_513 % 1_099_511_627_689)
}

/// Names of one word, which was full after some dozens of them.
fn names(word: u64) -> Vec<Vec<u8>> {
    let all = (0..).map(|count: u64| format!("{count:x}").into_bytes());
    all.filter(|name| number(name) % 4096 == word).take(FILES).collect()
}

/// 4,000 names of word 7, all of seven bytes.
fn many_names() -> Vec<Vec<u8>> {
    let text = include_str!("../testdata/one-word-names.txt");
    let names: Vec<Vec<u8>> = text.lines().map(|name| name.as_bytes().to_vec()).collect();
    assert!(names.len() == 4000 && names.iter().all(|name| number(name) % 4096 == 7));
    names
}

/// What the library makes of a name in the root (docs/DECISIONS.md, "Unique names by cells").
#[derive(Clone, Copy)]
struct Hash {
    a: u64,
    b: u64,
    c: u64,
}

impl Hash {
    fn of(name: &[u8]) -> Hash {
        let root = Hash { a: 0, b: 1_234_567_891, c: 987_654_321 };
        let byte = |place: usize| name.get(place).map_or(0, |&byte| u64::from(byte));
        let three = |turn: usize| byte(3 * turn) + 256 * byte(3 * turn + 1) + 65_536 * byte(3 * turn + 2);
        (0..name.len() / 3 + 1).fold(root, |hash, turn| hash.mixed(three(turn))).mixed(0)
    }

    fn mixed(self, three: u64) -> Hash {
        Hash {
            a: (self.a + self.c + three).pow(2) % 2_139_095_017,
            b: (self.b + self.a + three).pow(2) % 2_139_095_011,
            c: (self.c + self.b + three).pow(2) % 2_139_094_963,
        }
    }

    fn mark(self) -> u64 {
        self.a % 32_767 + 1
    }

    fn cell(self) -> u64 {
        self.c % 131_072
    }
}

/// That many names that a test takes, in the order of counting.
fn picked(count: usize, is_picked: impl Fn(Hash) -> bool) -> Vec<Vec<u8>> {
    let all = (0..).map(|count: u64| format!("{count:x}").into_bytes());
    all.filter(|name| is_picked(Hash::of(name))).take(count).collect()
}

/// Names that all begin in 64 of the 131,072 cells, then names of one mark: each is tried for, none can be computed.
fn picks() -> [(&'static str, Vec<Vec<u8>>); 3] {
    [
        ("4,000 names of word 7", many_names()),
        ("4,000 names of 64 cells", picked(4000, |hash| hash.cell() < 64)),
        ("1,000 names of one mark", picked(1000, |hash| hash.mark() == 7)),
    ]
}

/// A standard card with these empty files.
fn card(format: Format, names: &[Vec<u8>]) -> Vec<u8> {
    files_in_root(format, Layout::standard(), names)
}

/// The names by themselves, then with twins at both ends and at random places.
fn twins(format: Format, names: &[Vec<u8>], rounds: usize, what: &str) {
    let reached = (2 + names.len()).div_ceil(2);
    let counts = Layout::standard().counts(reached);
    assert_eq!(same(format, &card(format, names), what), Ok(counts), "{what}");

    let mut rng = Rng::new(names.len() as u64);
    let last = names.len() - 1;
    let mut pairs = vec![(0, last), (0, 1), (last - 1, last)];
    for _ in 0..rounds {
        let other = rng.between(1, last);
        pairs.push((rng.below(other), other));
    }
    for (one, other) in pairs {
        let mut twins = names.to_vec();
        twins[other] = names[one].clone();
        let what = format!("{what}, twins {one} and {other}");
        assert_eq!(same(format, &card(format, &twins), &what), Err(Refusal::number(7)), "{what}");
    }
}

#[test]
fn names_of_one_word() {
    for (format, word) in Format::BOTH.into_iter().flat_map(|format| [0, 7, 4095].map(|word| (format, word))) {
        twins(format, &names(word), 20, &format!("word {word}"));
    }
}

#[test]
fn many_picked_names() {
    for (what, names) in picks() {
        for format in Format::BOTH {
            twins(format, &names, 3, what);
        }
    }
}

/// The check of picked names takes at most five times that of as many ordinary ones. The least of three runs counts,
/// and rounds go on while that isn't enough, so that a loaded machine only makes the test longer.
#[test]
fn time_of_picked_names() {
    let ours: Check = compare::check;
    for ((what, names), format) in picks().iter().flat_map(|pick| Format::BOTH.map(|format| (pick, format))) {
        let (picked, ordinary) = (card(format, names), card(format, &Names::Ascending.of(names.len())));
        let mut least = [Duration::MAX; 2];
        for _ in 0..5 {
            let times = times(&[(ours, format, &picked), (ours, format, &ordinary)], 3);
            least.iter_mut().zip(&times).for_each(|(least, times)| *least = times[0].min(*least));
            if least[0] <= 5 * least[1] {
                break;
            }
        }
        println!("{format:?}, {what} and as many others: {least:?}");
        assert!(least[0] <= 5 * least[1], "{format:?}, {what}: {least:?}");
    }
}
