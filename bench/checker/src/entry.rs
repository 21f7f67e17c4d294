//! The rules of a single directory entry.

use crate::names::{Name, Names};
use crate::pages::{half, word, Data};

const LIVE: u16 = 0x8000;
const DIRECTORY: u16 = 0x20;
const FILE: u16 = 0x10;
const KIND: u16 = DIRECTORY | FILE;

/// The first cluster of an empty file.
const NO_CLUSTER: u32 = 0xFFFF_FFFF;
/// Directories lie at most this far below the root.
const DEEPEST: usize = 7;

/// What the walk has to follow from a sound entry.
pub enum Entry {
    /// A dead entry or an empty file.
    Nothing,
    File {
        first: u32,
        length: u32,
    },
    Directory {
        first: u32,
        length: u32,
    },
}

/// A directory's length: it counts entries, at least the two dots.
pub fn directory_length(data: &Data) -> Option<u32> {
    Some(word(data, 0x04)).filter(|&length| length >= 2)
}

/// Whether this is one of the first two entries, with its name and the zero after it.
pub fn is_dots(data: &Data, name: &[u8]) -> bool {
    half(data, 0) & (LIVE | KIND) == LIVE | DIRECTORY && data[0x40..].starts_with(name)
}

/// Judges an entry after the first two, in a directory this far below the root; nothing where it breaks a rule.
pub fn judge(data: &Data, depth: usize, names: &mut Names) -> Option<Entry> {
    let mode = half(data, 0);
    if mode & LIVE == 0 {
        return Some(Entry::Nothing);
    }
    if !names.insert(Name::of(data)?) {
        return None;
    }
    let (length, first) = (word(data, 0x04), word(data, 0x10));
    match mode & KIND {
        FILE if length > 0 => Some(Entry::File { first, length }),
        FILE => (first == NO_CLUSTER).then_some(Entry::Nothing),
        DIRECTORY if depth < DEEPEST => directory_length(data).map(|length| Entry::Directory { first, length }),
        _ => None,
    }
}
