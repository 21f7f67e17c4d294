//! Seeded random requests against a card: paths that exist, nearly exist, or can't.

use super::draw::{long_name, random_name};
use crate::change::Change;
use crate::content::Tree;
use crate::paths::{self, MOST_NAMES};
use crate::rng::Rng;
use crate::time::{stamp, Time};

/// A valid time, or now and then an invalid one.
pub fn random_time(rng: &mut Rng) -> Time {
    if rng.chance(1, 25) {
        return rng.draw().to_le_bytes();
    }
    stamp(
        rng.between(1980, 9999) as u16,
        rng.between(1, 12) as u8,
        rng.between(1, 28) as u8,
        rng.below(24) as u8,
        rng.below(60) as u8,
        rng.below(60) as u8,
    )
}

/// Paths that are malformed wherever they stand, and the root.
const STRANGE: [&[u8]; 10] =
    [b"", b"/", b"a", b"//", b"/a/", b"/.", b"/../x", b"/a*", b"/a/b/c/d/e/f/g/h/i", b"/a/b/c/d/e/f/g/h/"];

/// A path: one of the tree's, a new name in one of its directories, or a strange one.
pub fn random_path(rng: &mut Rng, tree: &Tree, fresh: bool) -> Vec<u8> {
    let all: Vec<&Vec<u8>> = tree.keys().collect();
    let directories: Vec<&Vec<u8>> = tree.iter().filter(|(_, item)| item.is_directory).map(|(path, _)| path).collect();
    let (any, mut directory) = (*rng.pick(&all), *rng.pick(&directories));
    if rng.chance(1, 6) {
        directory = directories.iter().max_by_key(|path| paths::depth(path)).expect("the root is one");
    }
    let name = if rng.chance(1, 10) { long_name(rng) } else { random_name(rng) };
    match rng.below(30) {
        0 => rng.pick(&STRANGE).to_vec(),
        1 => paths::join(any, &name),
        2 => paths::join(&paths::join(directory, &name), b"x"),
        3 => stretched(rng, directory),
        _ if fresh => paths::join(directory, &name),
        _ => any.clone(),
    }
}

/// The path with new names after it, as many names in all as a path may have, or one more.
pub fn stretched(rng: &mut Rng, path: &[u8]) -> Vec<u8> {
    let names = MOST_NAMES + usize::from(rng.chance(1, 3));
    (paths::depth(path)..names).fold(path.to_vec(), |path, _| {
        let name = if rng.chance(1, 3) { long_name(rng) } else { random_name(rng) };
        paths::join(&path, &name)
    })
}

/// A random change; most of them fit the card.
pub fn random_change(rng: &mut Rng, tree: &Tree) -> Change {
    let kind = rng.below(5);
    let fresh = kind < 2 && !rng.chance(1, 12) || kind >= 2 && rng.chance(1, 20);
    let mut path = random_path(rng, tree, fresh);
    if kind >= 2 && !rng.chance(1, 12) {
        // A path of the kind the change wants, if there is one.
        let wanted = kind == 4;
        let fitting: Vec<&Vec<u8>> = tree
            .iter()
            .filter(|(path, item)| item.is_directory == wanted && path != &b"/")
            .map(|(path, _)| path)
            .collect();
        if !fitting.is_empty() {
            path = rng.pick(&fitting).to_vec();
        }
    }
    let time = random_time(rng);
    let bytes = match rng.below(6) {
        0 => 0,
        1 => *rng.pick(&[1, 512, 513, 1024, 1025, 2048]),
        2 => rng.below(40_000),
        _ => rng.below(4_000),
    };
    match kind {
        0 => Change::Create { path, time, data: rng.bytes(bytes) },
        1 => Change::MakeDir { path, time },
        2 => Change::Replace { path, time, data: rng.bytes(bytes) },
        3 => Change::Delete { path },
        _ => Change::RemoveDir { path },
    }
}
