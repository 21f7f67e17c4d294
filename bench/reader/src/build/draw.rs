//! Random pieces of cards: layouts, names and entry pages.

use super::Layout;
use crate::card::NO_BLOCK;
use crate::entry::{DIRECTORY, EXISTS, FILE};
use crate::names;
use crate::page::{self, Data, DATA};
use crate::rng::Rng;

/// Scattered, unordered table clusters and any room that the superblock rules leave.
pub fn random_layout(rng: &mut Rng, clusters: usize) -> Layout {
    let blocks = clusters / 8;
    let mut spare_blocks: Vec<u32> = (blocks - rng.between(2, 4.min(blocks - 2))..blocks).map(|b| b as u32).collect();
    rng.shuffle(&mut spare_blocks);
    let backups = [spare_blocks[0], spare_blocks[1]];
    let limit = 8 * backups[0].min(backups[1]) as usize;
    let most_tables = limit.div_ceil(256);
    let slack = (limit - most_tables - 3).min(12);
    let alloc_offset = most_tables + 2 + rng.below(slack + 1);
    let room = limit - alloc_offset;
    let alloc_end = if rng.chance(1, 2) { room } else { rng.between(room.div_ceil(2), room) };
    let mut names: Vec<usize> = (1..alloc_offset).collect();
    rng.shuffle(&mut names);
    let table = names[1..=alloc_end.div_ceil(256)].to_vec();
    let version = *rng.pick(&["1.1.0.0", "1.2.0.0"]);
    Layout { clusters, alloc_offset, alloc_end, indirect: names[0], table, backups, version }
}

/// A list of bad blocks that is accepted: one to 32 words at any places. They name up to half of the blocks without a
/// name of superblock or table, some of them more than once; backup blocks too.
pub fn random_list(rng: &mut Rng, layout: &Layout) -> [u32; 32] {
    let names = || layout.table.iter().chain([&layout.indirect]).map(|name| name / 8);
    let mut blocks: Vec<usize> = (1..layout.clusters / 8).filter(|block| names().all(|name| name != *block)).collect();
    // On a card with a tail often those around its first cluster.
    if layout.clusters == 8192 && rng.chance(1, 2) {
        blocks.retain(|&block| block >= 990);
    }
    rng.shuffle(&mut blocks);
    blocks.truncate(rng.between(1, blocks.len().div_ceil(2)));
    let words = *rng.pick(&[1, 2, 4, 8, 32]);
    let mut places: Vec<usize> = (0..32).collect();
    rng.shuffle(&mut places);
    let mut list = [NO_BLOCK; 32];
    places[..words].iter().for_each(|&place| list[place] = *rng.pick(&blocks) as u32);
    list
}

/// A page of junk.
pub fn random_page(rng: &mut Rng) -> Data {
    let mut data = [0; DATA];
    rng.fill(&mut data);
    data
}

/// Sets bit 0x8000 and the given ones, exactly one of them a kind; the other mode bits stay.
pub fn put_kind(data: &mut Data, bits: u16) {
    let mode = page::half(data, 0) & !(DIRECTORY | FILE) | EXISTS | bits;
    page::put_half(data, 0, mode);
}

/// A name, its zero, and whatever stood after it.
pub fn put_name(rng: &mut Rng, data: &mut Data, name: &[u8]) {
    let field = &mut data[0x40..0x60];
    if rng.chance(1, 2) {
        field.fill(0);
    }
    field[..name.len()].copy_from_slice(name);
    field[name.len()] = 0;
}

/// A name of 31 bytes; only a few of them differ.
pub fn long_name(rng: &mut Rng) -> Vec<u8> {
    let mut name = [b'n'; names::FIELD - 1];
    (0..3).for_each(|_| name[rng.below(31)] = *rng.pick(b"aAbB. 01"));
    name.to_vec()
}

/// A name by the rule; often short, so that names nearly collide.
pub fn random_name(rng: &mut Rng) -> Vec<u8> {
    let length = if rng.chance(2, 3) { rng.between(1, 3) } else { rng.between(1, 31) };
    let narrow = rng.chance(1, 2);
    loop {
        let name: Vec<u8> =
            (0..length).map(|_| if narrow { *rng.pick(b"aAbB. ") } else { rng.between(0x20, 0x7E) as u8 }).collect();
        if names::allowed(&name) {
            return name;
        }
    }
}
