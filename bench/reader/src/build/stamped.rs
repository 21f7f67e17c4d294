//! Cards whose files have given modified stamps, valid or not.

use super::{directory, file, Assembly, Layout};
use crate::card::MOST_CLUSTERS;
use crate::entry::{Entry, NO_CLUSTER};
use crate::page::Format;
use crate::time::{stamp, Time};

/// Most files in a directory.
pub const FILES: usize = 100;

/// When the files were created.
pub fn created() -> Time {
    stamp(1999, 12, 31, 23, 58, 57)
}

/// When the directories were modified; their `.` and `..` tell another time.
pub fn directories_modified() -> Time {
    stamp(2001, 2, 3, 4, 5, 6)
}

/// Valid stamps: both ends of the years and two leap days.
pub fn valid() -> Vec<Time> {
    vec![
        stamp(1980, 1, 1, 0, 0, 0),
        stamp(9999, 12, 31, 23, 59, 59),
        stamp(2000, 2, 29, 12, 34, 56),
        stamp(2024, 2, 29, 0, 0, 0),
    ]
}

/// Stamps that are invalid, each in one part.
pub fn invalid() -> Vec<Time> {
    let mut unzeroed = stamp(2000, 2, 29, 12, 34, 56);
    unzeroed[0] = 1;
    vec![
        stamp(2000, 13, 1, 12, 34, 56),
        stamp(2100, 2, 29, 12, 34, 56),
        stamp(2000, 2, 29, 24, 0, 0),
        stamp(2000, 2, 29, 12, 34, 60),
        unzeroed,
        stamp(1979, 12, 31, 23, 59, 59),
        stamp(10_000, 1, 1, 0, 0, 0),
        stamp(2000, 2, 0, 12, 34, 56),
    ]
}

/// Clusters of a directory with so many entries after its first two.
fn clusters(entries: usize) -> usize {
    (2 + entries).div_ceil(2)
}

/// A card with an empty file for each stamp: `/D00/F0000`, `/D00/F0001` and so on, a new directory after every 100 of
/// them. It is the bench card where that is enough, else the least one that holds them; 100,000 always fit.
pub fn stamped(format: Format, stamps: &[Time]) -> Vec<u8> {
    let groups: Vec<&[Time]> = stamps.chunks(FILES).collect();
    let needed = clusters(groups.len()) + groups.iter().map(|group| clusters(group.len())).sum::<usize>();
    let mut layouts = (56..=MOST_CLUSTERS).step_by(8).map(Layout::fresh);
    let layout = layouts.find(|layout| layout.alloc_end >= needed).expect("a card has room for the stamps");
    let mut card = Assembly::new(format, layout);
    let root: Vec<usize> = (0..clusters(groups.len())).collect();
    card.directory(&root, 2 + groups.len() as u32);
    let mut next = root.len();
    for (number, group) in groups.iter().enumerate() {
        let chain: Vec<usize> = (next..next + clusters(group.len())).collect();
        next += chain.len();
        let name = format!("D{number:02}");
        let entry = directory(name.as_bytes(), 2 + group.len() as u32, chain[0] as u32);
        card.put(root[1 + number / 2], number % 2, &Entry { modified: directories_modified(), ..entry });
        card.directory(&chain, 0);
        put_files(&mut card, &chain, number * FILES, group);
    }
    card.finish()
}

/// Empty files with these stamps from a directory's slot 2 on, named by their numbers from `first` on.
fn put_files(card: &mut Assembly, chain: &[usize], first: usize, stamps: &[Time]) {
    for (place, &modified) in stamps.iter().enumerate() {
        let name = format!("F{:04}", first + place);
        let entry = Entry { created: created(), modified, ..file(name.as_bytes(), 0, NO_CLUSTER) };
        card.put(chain[1 + place / 2], place % 2, &entry);
    }
}
