//! What the tests of changes share.
#![allow(dead_code)]

use reader::tree::Checked;
use reader::{check, page, Format, Refusal};

/// The answer where room is wanting.
pub const TWELVE: Result<(), Refusal> = Err(Refusal::number(12));

/// The free count and the held back one.
pub fn room(format: Format, image: &[u8]) -> (usize, usize) {
    let counts = check(format, image).unwrap();
    (counts.free, counts.held)
}

/// For each allocatable cluster whether it may be taken: it is no part of a tail, which only a card of 8,192 clusters
/// has, from 8,000 up, and none of the 32 words at 0xD0 of page 0 names its block.
pub fn open_clusters(format: Format, image: &[u8]) -> Vec<bool> {
    let card = Checked::of(format, image).unwrap().card;
    let superblock = page::read(format, image, 0).unwrap();
    let limit = if card.clusters == 8192 { 8000 } else { 65_536 };
    let is_listed = |cluster: usize| {
        let block = ((card.alloc_offset + cluster) / 8) as u32;
        superblock[0xD0..0x150].chunks(4).any(|word| word == block.to_le_bytes())
    };
    (0..card.alloc_end).map(|cluster| cluster < limit && !is_listed(cluster)).collect()
}
