//! Seeded random cards of either format with random faults. What each must be refused with is for the check to say.

use super::draw::random_name;
use super::random::random;
use super::{directory, needed, scribble};
use crate::card::{BAD_BLOCKS, BAD_BLOCK_WORDS, END_MARK, USED};
use crate::content::visit;
use crate::entry::{DIRECTORY, FILE};
use crate::page::{self, put_half, put_word, word, Data, Format, DATA};
use crate::paths::{self, MOST_NAMES};
use crate::rng::Rng;
use crate::tree::Checked;

/// A random card with one to three faults; some do no harm.
pub fn vandalised(format: Format, seed: u64) -> Vec<u8> {
    let card = random(format, seed);
    let mut rng = Rng::new(seed ^ 0xBAD_CA4D);
    let mut image = card.image;
    let checked = Checked::of(format, &image).expect("a random card passes");
    let entries = needed::entries(&checked);
    let tables: Vec<usize> = card.layout.table.iter().flat_map(|&cluster| [2 * cluster, 2 * cluster + 1]).collect();
    let (end, indirect) = (card.layout.alloc_end, card.layout.indirect);

    for _ in 0..rng.between(1, 3) {
        match rng.below(42) {
            0 => image.truncate(rng.below(image.len())),
            1..=2 | 40 => alter(format, &mut image, 0, |data| superblock_fault(&mut rng, data)),
            3..=4 => {
                let name = rng.below(card.layout.table.len());
                let value = *rng.pick(&[0, indirect as u32, 1, 2, END_MARK, card.layout.alloc_offset as u32]);
                let page = 2 * indirect + name / 128;
                alter(format, &mut image, page, |data| put_word(data, 4 * (name % 128), value));
            }
            5..=14 => {
                let cluster = rng.below(end);
                let page = tables[cluster / 128];
                let link = USED | rng.below(end) as u32;
                let value = *rng.pick(&[0, !USED, END_MARK, USED, USED | end as u32, link]);
                alter(format, &mut image, page, |data| put_word(data, 4 * (cluster % 128), value));
            }
            15..=34 => alter(format, &mut image, *rng.pick(&entries), |data| entry_fault(&mut rng, data, end)),
            35..=36 => scribble::ruin(format, &mut image, *rng.pick(&tables), rng.below(4), &mut rng),
            37 => scribble::ruin(format, &mut image, 2 * indirect + rng.below(2), rng.below(4), &mut rng),
            38 => {
                let name = *rng.pick(&card.layout.table);
                let block = *rng.pick(&[0, 1, indirect / 8, name / 8, card.layout.clusters / 8]) as u32;
                let at = BAD_BLOCKS + 4 * rng.below(BAD_BLOCK_WORDS);
                alter(format, &mut image, 0, |data| put_word(data, at, block));
            }
            _ => scribble::ruin(format, &mut image, *rng.pick(&entries), rng.below(4), &mut rng),
        }
        if image.len() < card.layout.clusters * format.cluster_bytes() {
            break;
        }
    }
    image
}

/// A random card on which a file of a directory 7 below the root has become a directory, with a sound inside where no
/// entry lives; nothing, where the card has no such file.
pub fn too_deep(format: Format, seed: u64) -> Option<Vec<u8>> {
    let mut image = random(format, seed).image;
    let checked = Checked::of(format, &image).expect("a random card passes");
    let mut files = Vec::new();
    visit(&checked.root, b"/", &mut |path, node| {
        if paths::depth(path) == MOST_NAMES && !node.chain.is_empty() {
            files.push(node.clone());
        }
    });
    if files.is_empty() {
        return None;
    }
    let file = Rng::new(seed ^ 0xDEE9).pick(&files).clone();
    let length = 2 * file.chain.len();
    for slot in 0..length {
        let data = match slot {
            0 => directory(b".", 0, 0).page(),
            1 => directory(b"..", 0, 0).page(),
            _ => [0; DATA],
        };
        page::write(format, &mut image, checked.card.slot_page(&file.chain, slot), &data);
    }
    alter(format, &mut image, file.page, |data| {
        put_half(data, 0, file.entry.mode ^ (DIRECTORY | FILE));
        put_word(data, 4, length as u32);
    });
    Some(image)
}

/// Rewrites a page where it is still readable.
fn alter(format: Format, image: &mut [u8], page: usize, change: impl FnOnce(&mut Data)) {
    if let Some(mut data) = page::read(format, image, page) {
        change(&mut data);
        page::write(format, image, page, &data);
    }
}

fn superblock_fault(rng: &mut Rng, data: &mut Data) {
    let at = *rng.pick(&[0x00, 0x0C, 0x18, 0x1C, 0x24, 0x28, 0x2C, 0x30, 0x34, 0x38, 0x3C, 0x40, 0x44, 0x50, 0xD0]);
    let value = match rng.below(4) {
        0 => rng.draw() as u32,
        1 => word(data, at) ^ 1 << rng.below(32),
        2 => word(data, at).wrapping_add(1),
        _ => word(data, at).wrapping_sub(1),
    };
    put_word(data, at, value);
}

fn entry_fault(rng: &mut Rng, data: &mut Data, end: usize) {
    match rng.below(6) {
        0 => {
            let mode = page::half(data, 0) ^ *rng.pick(&[0x8000, 0x20, 0x10, 0x30, 0x0001]);
            put_half(data, 0, mode);
        }
        1 => {
            let length = word(data, 4);
            let value = *rng.pick(&[0, 1, 2, length.wrapping_add(1), length.wrapping_add(1024), length / 2, END_MARK]);
            put_word(data, 4, value);
        }
        2 => {
            let value = *rng.pick(&[0, 1, end as u32, END_MARK, word(data, 0x10) | USED, word(data, 0x10) ^ 1]);
            put_word(data, 0x10, value);
        }
        3 => data[0x40 + rng.below(4)] = *rng.pick(b"\0*/?.\x1f\x7f\xffa "),
        4 => {
            let name = random_name(rng);
            data[0x40..0x60].fill(0);
            data[0x40..][..name.len()].copy_from_slice(&name);
        }
        _ => data.fill(*rng.pick(&[0x00, 0xFF])),
    }
}
