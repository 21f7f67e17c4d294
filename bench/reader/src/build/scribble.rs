//! Flips, damage and junk that reading must see through, or must not. A plain image has no code, so that there every
//! flip is other data.

use crate::ecc::CHUNK;
use crate::page::{Format, CHUNKS, DATA};
use crate::rng::Rng;

/// Data bits of a chunk, and the code bits of it that count.
pub const DATA_BITS: usize = 8 * CHUNK;
pub const CODE_BITS: usize = 20;
/// Bits of a raw page that reading ignores: four of each code, and spare bytes 12 to 15.
pub const IGNORED_BITS: usize = 4 * CHUNKS + 8 * 4;

/// Bits of a chunk that reading goes by.
fn bits(format: Format) -> usize {
    match format {
        Format::Raw => DATA_BITS + CODE_BITS,
        Format::Plain => DATA_BITS,
    }
}

/// Flips one bit of a chunk: one of its 1,024 data bits, or in a raw image of its 20 code bits.
pub fn flip(format: Format, image: &mut [u8], page: usize, chunk: usize, place: usize) {
    assert!(place < bits(format), "no such bit");
    let bytes = &mut image[format.place(page)];
    if place < DATA_BITS {
        bytes[CHUNK * chunk + place / 8] ^= 1 << (place % 8);
    } else {
        let (byte, bit) = code_bit(place - DATA_BITS);
        bytes[DATA + 3 * chunk + byte] ^= 1 << bit;
    }
}

/// The 20 counted code bits, by number.
fn code_bit(number: usize) -> (usize, usize) {
    match number {
        0..=5 => (0, [0, 1, 2, 4, 5, 6][number]),
        6..=12 => (1, number - 6),
        13..=19 => (2, number - 13),
        _ => panic!("20 code bits count"),
    }
}

/// Flips one of a raw page's 48 bits that reading ignores: every chunk stays good.
pub fn flip_ignored(image: &mut [u8], page: usize, place: usize) {
    assert!(place < IGNORED_BITS, "no such bit");
    let (byte, bit) = match place.checked_sub(4 * CHUNKS) {
        None => {
            let (byte, bit) = [(0, 3), (0, 7), (1, 7), (2, 7)][place % 4];
            (3 * (place / 4) + byte, bit)
        }
        Some(place) => (12 + place / 8, place % 8),
    };
    image[Format::Raw.place(page)][DATA + byte] ^= 1 << bit;
}

/// One flip somewhere in a chunk; a raw one is corrected.
pub fn mendable(format: Format, image: &mut [u8], page: usize, chunk: usize, rng: &mut Rng) {
    flip(format, image, page, chunk, rng.below(bits(format)));
}

/// Two flips in one chunk: a raw page whose code matched becomes unreadable.
pub fn ruin(format: Format, image: &mut [u8], page: usize, chunk: usize, rng: &mut Rng) {
    let bits = bits(format);
    let one = rng.below(bits);
    let other = (one + 1 + rng.below(bits - 1)) % bits;
    flip(format, image, page, chunk, one);
    flip(format, image, page, chunk, other);
}

/// The plainest damage: two data bits of a page's first chunk.
pub fn break_page(format: Format, image: &mut [u8], page: usize) {
    flip(format, image, page, 0, 8);
    flip(format, image, page, 0, 21);
}

/// Junk in a raw page's ignored code bits and in its spare bytes 12 to 15.
pub fn junk_spare(image: &mut [u8], page: usize, rng: &mut Rng) {
    let spare = &mut image[Format::Raw.place(page)][DATA..];
    for code in spare[..12].chunks_mut(3) {
        code[0] ^= rng.draw() as u8 & 0x88;
        code[1] ^= rng.draw() as u8 & 0x80;
        code[2] ^= rng.draw() as u8 & 0x80;
    }
    rng.fill(&mut spare[12..]);
}
