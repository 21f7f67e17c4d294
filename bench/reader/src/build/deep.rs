//! Directories down to 7 below the root, as deep as they may lie, and one that lies 8 below.

use super::bad::{broken, BadCard};
use super::good::GoodCard;
use super::{directory, file, Assembly, Layout};
use crate::entry::Entry;
use crate::page::Format;
use crate::tree::{Counts, DEEPEST};
use crate::Refusal;

/// The path of the file that lies deepest on the sample.
pub const PATH: &[u8] = b"/D1/D2/D3/D4/D5/D6/D7/deep";

pub const SAMPLE: Counts = Counts { clusters: 56, free: 11, reached: 19, orphaned: 0, held: 0, mended: 0 };

/// The cluster of the deepest file, and a free one.
const FILE: usize = 16;
const FREE: usize = 19;

/// The chain of the directory so far below the root.
fn chain(depth: usize) -> [usize; 2] {
    [2 * depth, 2 * depth + 1]
}

/// The image's page index of the last directory's slot 2.
const fn last_slot() -> usize {
    2 * (10 + 2 * DEEPEST + 1)
}

/// On the bench layout: `/D1/D2/D3/D4/D5/D6/D7/deep` of 10 bytes, and `/F` of 1,500.
pub fn sample(format: Format) -> Assembly {
    named(format, |depth| format!("D{depth}").into_bytes(), b"deep")
}

/// The same with other names for the directories, by their depth, and for the file that lies deepest.
pub fn named(format: Format, name: impl Fn(usize) -> Vec<u8>, deep: &[u8]) -> Assembly {
    let mut card = Assembly::new(format, Layout::bench());
    card.directory(&[0, 1], 4);
    card.put(1, 1, &file(b"F", 1500, 17));
    card.chain(&[17, 18]);
    let mut around = 1;
    for depth in 1..=DEEPEST {
        let chain = chain(depth);
        card.put(around, 0, &directory(&name(depth), 3, chain[0] as u32));
        card.directory(&chain, 0);
        around = chain[1];
    }
    card.put(around, 0, &file(deep, 10, FILE as u32));
    card.chain(&[FILE]);
    card
}

/// A name of 31 bytes for each depth.
pub fn long_name(depth: usize) -> Vec<u8> {
    format!("{depth}-and-a-name-of-31-bytes-in-all").into_bytes()
}

/// The path of 256 bytes that leads to the deepest file where every name is long.
pub fn long_path() -> Vec<u8> {
    (1..=DEEPEST + 1).flat_map(|depth| [b"/", &long_name(depth)[..]].concat()).collect()
}

/// The accepted cards that are as deep as they may be.
pub(super) fn good(format: Format) -> Vec<GoodCard> {
    let card = |name, counts, card: Assembly| GoodCard { name, format, image: card.finish(), counts };
    let mut dead = sample(format);
    dead.put(chain(DEEPEST)[1], 0, &Entry { mode: 0x0427, ..directory(b"D8", 2, FILE as u32) });
    vec![
        card("directories 7 below the root", SAMPLE, sample(format)),
        card("a path of 256 bytes", SAMPLE, named(format, long_name, &long_name(DEEPEST + 1))),
        card("a dead directory 8 below the root", Counts { reached: 18, orphaned: 1, ..SAMPLE }, dead),
    ]
}

/// The sample with a directory 8 below the root in the place of its deepest file.
fn too_deep(format: Format, name: &'static str, first: usize, length: u32) -> BadCard {
    let mut card = sample(format);
    card.put(chain(DEEPEST)[1], 0, &directory(b"D8", length, first as u32));
    card.directory(&[FILE], 0);
    BadCard { name, format, image: card.finish(), refusal: Refusal::number(7) }
}

/// A file 8 below, whose chain isn't sound, and after it a directory.
fn behind_a_file(format: Format) -> BadCard {
    let mut card = sample(format);
    let last = chain(DEEPEST);
    card.put(chain(DEEPEST - 1)[1], 0, &directory(b"D7", 4, last[0] as u32));
    card.put(last[1], 1, &directory(b"D8", 2, FREE as u32));
    card.directory(&[FREE], 0);
    card.table[FILE] = 0;
    let name = "a file's chain before a directory too deep";
    BadCard { name, format, image: card.finish(), refusal: Refusal::number(6) }
}

/// Refused: a directory 8 below the root, whatever its chain and its inside are.
pub(super) fn bad(format: Format) -> Vec<BadCard> {
    let seven = Refusal::number(7);
    let inside = [2 * (10 + FILE), 2 * (10 + FILE) + 1];
    let page = last_slot();
    vec![
        too_deep(format, "a directory 8 below the root", FILE, 2),
        too_deep(format, "a directory too deep before its chain", FREE, 2),
        too_deep(format, "a directory too deep before its chain's length", FILE, 5),
        broken(too_deep(format, "a directory too deep before its inside", FILE, 2), &inside, seven),
        behind_a_file(format),
        broken(too_deep(format, "an entry's page 8 below the root", FILE, 2), &[page], Refusal::unreadable(page)),
    ]
}
