//! Sample cards on which much lies already where no new cluster is taken: in the reserved tail, in listed bad blocks.

use super::good::GoodCard;
use super::{directory, file, Assembly, Layout};
use crate::card::{END_MARK, NO_BLOCK, USED};
use crate::entry::Entry;
use crate::page::{Format, CLUSTER_DATA, DATA};
use crate::tree::Counts;

/// A sample card, its clusters by table index. Those of the tail or of listed blocks are withheld.
#[derive(Clone, Copy, Debug)]
pub struct Sample {
    pub name: &'static str,
    layout: fn() -> Layout,
    /// Two numbers of the layout.
    pub alloc_offset: usize,
    pub alloc_end: usize,
    /// The bad block list.
    list: &'static [u32],
    /// The root's chain; its last cluster is withheld and half used.
    pub root: [usize; 5],
    /// The chains of `/INSIDE`, `/SPLIT` and `/OUTSIDE`, wholly, partly and not withheld.
    pub inside: [usize; 3],
    pub split: [usize; 4],
    pub outside: [usize; 2],
    /// Withheld directories: `/HALF` of odd length, `/DEAD` with a dead slot, `/FULL` with no slot left.
    pub half: [usize; 2],
    pub dead: [usize; 2],
    pub full: [usize; 2],
    /// Orphans, all but the first withheld, and withheld words that are free though they don't look so.
    pub orphans: &'static [(usize, u32)],
    pub free_words: [(usize, u32); 3],
    /// Clusters for the tests to leave free, none of them withheld.
    pub free: [usize; 3],
    /// The counts with none of them free.
    counts: Counts,
}

/// From 8,000 up all clusters are withheld; 12 of them are reached, 3 orphaned.
pub const TAIL: Sample = Sample {
    name: "the tail",
    layout: Layout::standard,
    alloc_offset: 41,
    alloc_end: 8135,
    list: &[],
    root: [0, 1, 2, 3, 8010],
    inside: [8134, 8000, 8050],
    split: [7999, 8001, 5, 8133],
    outside: [6, 7],
    half: [8002, 8003],
    dead: [8004, 8005],
    full: [8006, 8007],
    orphans: &[(8, END_MARK), (8020, END_MARK), (8021, USED), (8022, 0xFFFF_FFFE)],
    free_words: [(8030, 0), (8031, 8000), (8132, 0x7FFF_FFFE)],
    free: [4, 9, 7998],
    counts: Counts { clusters: 8192, free: 0, reached: 7999 + 12, orphaned: 4, held: 120, mended: 0 },
};

/// The list has gaps, a block twice and a backup block. It withholds 0 to 4, so the root too, 13 to 20, 45 to 52 and 61
/// to 65: of these 26 clusters 16 are reached and 2 orphaned; of the 40 others 1 is orphaned.
pub const LISTED: Sample = Sample {
    name: "listed blocks",
    layout: twelve_blocks,
    alloc_offset: 11,
    alloc_end: 66,
    list: &[9, NO_BLOCK, 1, 3, 3, 11, 7],
    root: [0, 1, 2, 3, 13],
    inside: [20, 61, 4],
    split: [12, 14, 5, 65],
    outside: [6, 7],
    half: [15, 16],
    dead: [17, 18],
    full: [19, 62],
    orphans: &[(8, END_MARK), (63, END_MARK), (45, USED | 5)],
    free_words: [(64, 0), (46, 5), (52, 0x7FFF_FFFE)],
    free: [9, 21, 60],
    counts: Counts { clusters: 96, free: 0, reached: 16 + 39, orphaned: 3, held: 8, mended: 0 },
};

/// Both samples in both formats.
pub fn samples() -> impl Iterator<Item = (Format, Sample)> {
    Format::BOTH.into_iter().flat_map(|format| [TAIL, LISTED].map(|sample| (format, sample)))
}

/// The first allocatable cluster is the fourth of block 1, the last the fifth of block 9.
fn twelve_blocks() -> Layout {
    Layout {
        clusters: 96,
        alloc_offset: 11,
        alloc_end: 66,
        indirect: 5,
        table: vec![6],
        backups: [11, 10],
        version: "1.1.0.0",
    }
}

impl Sample {
    /// The sample; of the clusters that aren't withheld only the given ones are free, the file `/REST` has the others.
    pub fn card(&self, format: Format, free: &[usize]) -> Assembly {
        let Sample { root, inside, split, outside, half, dead, full, .. } = self;
        let mut card = Assembly::new(format, (self.layout)());
        card.list(self.list);
        let own = [&root[..], split, outside, &[self.orphans[0].0]].concat();
        let is_rest = |cluster: &usize| card.is_open(*cluster) && !own.contains(cluster) && !free.contains(cluster);
        let rest: Vec<usize> = (0..self.alloc_end).filter(is_rest).collect();
        let length = CLUSTER_DATA * rest.len() - 1;
        let entries = [
            file(b"INSIDE", 2500, inside[0] as u32),
            file(b"SPLIT", 4000, split[0] as u32),
            file(b"OUTSIDE", 2048, outside[0] as u32),
            directory(b"HALF", 3, half[0] as u32),
            directory(b"DEAD", 4, dead[0] as u32),
            directory(b"FULL", 4, full[0] as u32),
            file(b"REST", length as u32, rest[0] as u32),
        ];
        card.directory(root, 2 + entries.len() as u32);
        for (slot, entry) in (2..).zip(&entries) {
            card.put(root[slot / 2], slot % 2, entry);
        }
        [half, dead, full].into_iter().for_each(|chain| card.directory(chain, 0));
        card.put(half[1], 0, &file(b"x", 0, END_MARK));
        card.put(dead[1], 0, &Entry { mode: 0x0417, ..file(b"gone", 2048, inside[1] as u32) });
        card.put(dead[1], 1, &file(b"x", 0, END_MARK));
        card.put(full[1], 0, &file(b"x", 0, END_MARK));
        card.put(full[1], 1, &file(b"y", 0, END_MARK));
        card.chain(&rest);
        for chain in [&inside[..], split, outside] {
            card.chain(chain);
            put_bytes(&mut card, chain);
        }
        self.orphans.iter().chain(&self.free_words).for_each(|&(cluster, word)| card.table[cluster] = word);
        // Free words from alloc_end on are nobody's, though their clusters would be withheld.
        card.table[self.alloc_end..].fill(0);
        card
    }

    /// The counts with so many of its clusters free.
    pub const fn counts(&self, free: usize) -> Counts {
        Counts { free, reached: self.counts.reached - free, ..self.counts }
    }

    /// An accepted card, so many of its clusters free.
    pub fn good(&self, format: Format, name: &'static str, free: usize) -> GoodCard {
        GoodCard { name, format, image: self.card(format, &self.free[..free]).finish(), counts: self.counts(free) }
    }

    /// The image's page index of a cluster's first or second page.
    pub fn page(&self, cluster: usize, second: usize) -> usize {
        2 * (self.alloc_offset + cluster) + second
    }
}

/// Bytes that differ from page to page.
fn put_bytes(card: &mut Assembly, chain: &[usize]) {
    for index in 0..2 * chain.len() {
        let page = card.page(chain[index / 2], index % 2);
        let bytes: Vec<u8> = (0..DATA).map(|at| (7 * page + at) as u8).collect();
        card.write(page, &bytes.try_into().expect("a page's data"));
    }
}
