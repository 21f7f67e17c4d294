//! Seeded random requests of find, step and read: near what stands on a card, and far from it.

use reader::build::draw::random_name;
use reader::build::requests::stretched;
use reader::content::Tree;
use reader::paths::{self, MOST_NAMES};
use reader::rng::Rng;

/// A path of the card, one that is nearly such a path, or a malformed one.
pub fn random_path(rng: &mut Rng, tree: &Tree) -> Vec<u8> {
    let all: Vec<&Vec<u8>> = tree.keys().collect();
    let path = rng.pick(&all).to_vec();
    match rng.below(12) {
        0..=5 => path,
        6 => paths::join(&path, &random_name(rng)),
        7 => paths::join(&paths::join(&path, &random_name(rng)), b"x"),
        8 if rng.chance(1, 3) => stretched(rng, &path),
        8 => altered(rng, path),
        _ => malformed(rng, path),
    }
}

/// A byte of the path more, less or other: often an absent name, now and then another that stands there.
fn altered(rng: &mut Rng, mut path: Vec<u8>) -> Vec<u8> {
    let at = rng.between(1, path.len());
    match rng.below(4) {
        0 => path.truncate(at),
        1 => path.insert(at, *rng.pick(b" .a~")),
        2 if at < path.len() => path[at] ^= 0x20,
        _ => path.push(b' '),
    }
    path
}

/// A path with one of the rules of paths broken.
fn malformed(rng: &mut Rng, path: Vec<u8>) -> Vec<u8> {
    let mut names: Vec<Vec<u8>> = path.split(|&byte| byte == b'/').skip(1).map(<[u8]>::to_vec).collect();
    let at = rng.below(names.len());
    match rng.below(9) {
        0 => return Vec::new(),
        1 => return path[1..].to_vec(),
        2 => names.insert(at, Vec::new()),
        3 => names.push(Vec::new()),
        4 => (names.len()..=MOST_NAMES).for_each(|_| names.push(random_name(rng))),
        5 => names[at] = vec![b'n'; rng.between(32, 40)],
        6 => {
            let place = rng.between(0, names[at].len());
            let byte = *rng.pick(&[0, 0x1F, b'*', b'?', 0x7F, 0x80, 0xFF]);
            names[at].insert(place, byte);
        }
        7 => names[at] = b".".to_vec(),
        _ => names[at] = b"..".to_vec(),
    }
    names.iter().flat_map(|name| [b"/", &name[..]].concat()).collect()
}

/// A slot of a directory of this length, near its ends or beyond any directory.
pub fn random_slot(rng: &mut Rng, length: u32) -> u32 {
    match rng.below(8) {
        0 => rng.below(4) as u32,
        1 => length.wrapping_sub(1),
        2 => length,
        3 => length.wrapping_add(1),
        4 => *rng.pick(&[u32::MAX, u32::MAX - 1, 1 << 31, 1 << 16]),
        _ => rng.below(1 + length.min(1 << 20) as usize) as u32,
    }
}

/// An offset into a file of this length: its ends, the ends of its pages, or beyond any file.
pub fn random_offset(rng: &mut Rng, length: usize) -> usize {
    match rng.below(12) {
        0 => 0,
        1 => length.saturating_sub(1),
        2 => length,
        3 => length + 1,
        4 => *rng.pick(&[usize::MAX, usize::MAX - 511, 1 << 63, (1 << 32) + 5, u32::MAX as usize]),
        5..=6 => (512 * rng.below(1 + length.div_ceil(512)) + rng.below(3)).saturating_sub(1),
        _ => rng.below(1 + length),
    }
}

/// The size of a buffer for a read from an offset: none, all that is left, a little more or less, or any.
pub fn random_size(rng: &mut Rng, length: usize, offset: usize) -> usize {
    let left = length.saturating_sub(offset);
    match rng.below(9) {
        0 => 0,
        1 => 1,
        2 => left,
        3 => left.saturating_sub(1),
        4 => left + rng.between(1, 600),
        5 => *rng.pick(&[511, 512, 513, 1024]),
        _ => rng.below(1 + left + 100),
    }
}
