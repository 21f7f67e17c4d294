//! Cards whose superblock lists bad erase blocks, and what is counted there.

use super::good::GoodCard;
use super::withheld::LISTED;
use super::{Assembly, Layout};
use crate::card::NO_BLOCK;
use crate::page::{put_word, Format};

/// 64 blocks. Of the allocatable clusters block 1 holds the first three, blocks 2 to 60 eight each, block 61 the last
/// five.
pub fn wide() -> Layout {
    Layout {
        clusters: 512,
        alloc_offset: 13,
        alloc_end: 480,
        indirect: 3,
        table: vec![5, 2],
        backups: [63, 62],
        version: "1.2.0.0",
    }
}

/// A fresh card with this list.
pub fn fresh_with(format: Format, layout: Layout, list: &[u32]) -> Assembly {
    let mut card = Assembly::with_root(format, layout);
    card.list(list);
    card
}

/// Accepted cards with a list and their counts.
pub fn good(format: Format) -> Vec<GoodCard> {
    // A fresh card has 479 free clusters.
    let card =
        |name, held, list: &[u32]| GoodCard::new(name, [512, 479 - held, 1, 0, held], fresh_with(format, wide(), list));
    let edited = |name, held, list: &[u32], edit: fn(&mut Assembly)| {
        let mut card = fresh_with(format, wide(), list);
        edit(&mut card);
        GoodCard::new(name, [512, 479 - held, 1, 0, held], card)
    };
    let behind_none = |words: &[u32]| [&vec![NO_BLOCK; 32 - words.len()], words].concat();
    let thirty_two: Vec<u32> = (2..34).collect();
    let with_backups: Vec<u32> = (2..32).chain([63, 62]).collect();
    let bench = |name, free, held, list: &[u32]| {
        GoodCard::new(name, [56, free, 1, 0, held], fresh_with(format, Layout::bench(), list))
    };
    vec![
        card("a list of nothing", 0, &[NO_BLOCK; 32]),
        card("one bad block", 8, &[2]),
        card("the root's block bad", 2, &[1]),
        card("the block with the last clusters bad", 5, &[61]),
        card("bad blocks in no order", 23, &[60, 1, 61, 30]),
        card("the same bad block twice", 8, &[7, 7]),
        card("the same bad block 32 times", 8, &[7; 32]),
        card("32 bad blocks", 256, &thirty_two),
        card("32 bad blocks, the backups among them", 240, &with_backups),
        card("the last block bad, a backup", 0, &[63]),
        card("bad blocks behind words that list none", 13, &[NO_BLOCK, NO_BLOCK, 61, NO_BLOCK, 20]),
        card("a bad block in the last word alone", 8, &behind_none(&[33])),
        edited("words around the list", 8, &[5], |card| {
            put_word(&mut card.superblock, 0xCC, 9);
            put_word(&mut card.superblock, 0x150, 10);
        }),
        edited("words around the list that would be refused", 0, &[], |card| {
            put_word(&mut card.superblock, 0xCC, 0);
            put_word(&mut card.superblock, 0x150, 64);
        }),
        edited("words after the last name in a bad block", 8, &[5], |card| card.indirect[2..].fill(40)),
        edited("other indirect words of the superblock in a bad block", 8, &[5], |card| {
            (0x54..0xD0).step_by(4).for_each(|at| put_word(&mut card.superblock, at, 41));
        }),
        bench("the bench card, its second block of clusters bad", 21, 8, &[3]),
        bench("the bench card, all blocks bad but that of names and root", 5, 24, &[2, 3, 4, 5, 6]),
        LISTED.good(format, "the listed sample", 0),
        LISTED.good(format, "the listed sample, 3 free", 3),
    ]
}

/// Cards of 8,192 clusters, and their neighbours, with bad blocks around table index 8,000: a cluster that is in the
/// tail too is held back once.
pub fn with_tail(format: Format) -> Vec<GoodCard> {
    let card = |name, layout: Layout, list: &[u32], free, held| {
        let clusters = layout.clusters;
        GoodCard::new(name, [clusters, free, 1, 0, held], fresh_with(format, layout, list))
    };
    let standard = Layout::standard;
    // Index 8,000 is the first of block 1,005.
    let even = || Layout { alloc_offset: 40, alloc_end: 8136, ..Layout::widest(8192) };
    vec![
        // Block 1,005 begins at index 7,999.
        card("offset 41, the block across the limit", standard(), &[1005], 7998, 136),
        card("offset 41, the block below it", standard(), &[1004], 7991, 143),
        card("offset 41, the block above it", standard(), &[1006], 7999, 135),
        card("offset 41, all three", standard(), &[1006, 1005, 1004, 1005], 7990, 144),
        card("offset 41, the tail's last block and the backups", standard(), &[1021, 1022, 1023], 7999, 135),
        card("offset 41, alloc_end 8,001, the block across", standard().ending(8001), &[1005], 7998, 2),
        card("offset 41, alloc_end 8,000, the block across", standard().ending(8000), &[1005], 7998, 1),
        card("offset 41, alloc_end 7,999, the block behind it", standard().ending(7999), &[1005], 7998, 0),
        // Block 1,004 begins at index 7,998.
        card("offset 34, the block across the limit", Layout::widest(8192), &[1004], 7997, 144),
        card("offset 34, the block above it", Layout::widest(8192), &[1005], 7999, 142),
        card("offset 40, the block below the limit", even(), &[1004], 7991, 144),
        card("offset 40, the block above it", even(), &[1005], 7999, 136),
        card("N 8,184, the same block", Layout::fresh(8184), &[1005], 8118, 8),
        card("N 8,200, the same block", Layout::fresh(8200), &[1005], 8134, 8),
        card("N 65,536, the last block of clusters", Layout::fresh(65_536), &[8189], 65_247, 8),
        card("N 65,536, the last block of all", Layout::fresh(65_536), &[8191], 65_255, 0),
    ]
}
