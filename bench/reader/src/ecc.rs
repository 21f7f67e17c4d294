//! The code of a 128-byte chunk, and judging a chunk against its stored code.

use std::collections::HashMap;
use std::sync::OnceLock;

/// Data bytes in a chunk.
pub const CHUNK: usize = 128;

/// Three code bytes as they stand in the spare area.
pub type Code = [u8; 3];

/// The 20 bits that count: bits 3 and 7 of byte 0 and bit 7 of bytes 1 and 2 don't.
pub const COUNTED: Code = [0x77, 0x7F, 0x7F];

/// Bits of code byte 0, each with the mask whose parity flips it.
const COLUMNS: [(u8, u8); 6] = [(0, 0x55), (1, 0x33), (2, 0x0F), (4, 0xAA), (5, 0xCC), (6, 0xF0)];

/// For each byte value, what it flips in code byte 0; bit 7 tells an odd number of ones.
static EFFECT: [u8; 256] = effects();

const fn effects() -> [u8; 256] {
    let mut table = [0; 256];
    let mut value = 0;
    while value < 256 {
        let mut column = 0;
        while column < COLUMNS.len() {
            let (bit, mask) = COLUMNS[column];
            table[value] |= (((value as u8 & mask).count_ones() & 1) as u8) << bit;
            column += 1;
        }
        table[value] |= (((value as u8).count_ones() & 1) as u8) << 7;
        value += 1;
    }
    table
}

/// The code of a chunk by the rule of document 01, ignored bits zero.
pub fn code_of(chunk: &[u8]) -> Code {
    assert_eq!(chunk.len(), CHUNK);
    let mut effect = 0;
    let (mut ahead, mut behind) = (0x7F, 0x7F);
    for (place, &byte) in chunk.iter().enumerate() {
        let one = EFFECT[byte as usize];
        effect ^= one;
        let if_odd = (one >> 7).wrapping_neg();
        ahead ^= (127 - place as u8) & if_odd;
        behind ^= place as u8 & if_odd;
    }
    [0x77 ^ (effect & 0x77), ahead, behind]
}

/// One flipped bit that counts.
#[derive(Clone, Copy, Debug, PartialEq, Eq)]
pub enum Flip {
    Data { byte: usize, bit: u8 },
    Code { byte: usize, bit: u8 },
}

/// What a chunk and its stored code are worth together.
#[derive(Clone, Copy, Debug, PartialEq, Eq)]
pub enum Verdict {
    Good,
    Corrected(Flip),
    Unreadable,
}

/// The counted bits in which two codes differ, as one number.
fn difference(one: Code, other: Code) -> u32 {
    let [a, b, c] = [0, 1, 2].map(|k| u32::from((one[k] ^ other[k]) & COUNTED[k]));
    a | b << 8 | c << 16
}

/// Every one of the 1,044 single flips under the difference it makes.
///
/// The code is a XOR over the chunk's bits, so a flip makes the same difference
/// in every chunk; trying it on the zero chunk is enough.
fn flips() -> &'static HashMap<u32, Flip> {
    static FLIPS: OnceLock<HashMap<u32, Flip>> = OnceLock::new();
    FLIPS.get_or_init(|| {
        let zero = [0; CHUNK];
        let base = code_of(&zero);
        let mut table = HashMap::new();
        for byte in 0..CHUNK {
            for bit in 0..8 {
                let mut chunk = zero;
                chunk[byte] = 1 << bit;
                table.insert(difference(base, code_of(&chunk)), Flip::Data { byte, bit });
            }
        }
        for byte in 0..3 {
            for bit in (0..8).filter(|bit| COUNTED[byte] >> bit & 1 == 1) {
                let mut code = base;
                code[byte] ^= 1 << bit;
                table.insert(difference(base, code), Flip::Code { byte, bit });
            }
        }
        assert_eq!(table.len(), 1024 + 20, "no two flips look alike");
        table
    })
}

/// Good, corrected by exactly one flip, or unreadable.
pub fn judge(chunk: &[u8], stored: Code) -> Verdict {
    match difference(code_of(chunk), stored) {
        0 => Verdict::Good,
        other => match flips().get(&other) {
            Some(&flip) => Verdict::Corrected(flip),
            None => Verdict::Unreadable,
        },
    }
}

#[cfg(test)]
mod tests {
    use super::*;
    use crate::rng::Rng;

    /// The rule word by word, without tables.
    fn literal_code(chunk: &[u8]) -> Code {
        let odd = |value: u8| value.count_ones() % 2 == 1;
        let mut code = [0x77, 0x7F, 0x7F];
        for (place, &byte) in chunk.iter().enumerate() {
            for (bit, mask) in [(0, 0x55), (1, 0x33), (2, 0x0F), (4, 0xAA), (5, 0xCC), (6, 0xF0)] {
                if odd(byte & mask) {
                    code[0] ^= 1 << bit;
                }
            }
            if odd(byte) {
                code[1] ^= 127 - place as u8;
                code[2] ^= place as u8;
            }
        }
        code
    }

    /// Judging by trying every single flip.
    fn literal_verdict(chunk: &[u8], stored: Code) -> Verdict {
        let matches = |chunk: &[u8], stored: Code| {
            let code = literal_code(chunk);
            (0..3).all(|k| code[k] & COUNTED[k] == stored[k] & COUNTED[k])
        };
        if matches(chunk, stored) {
            return Verdict::Good;
        }
        for byte in 0..CHUNK {
            for bit in 0..8 {
                let mut flipped = chunk.to_vec();
                flipped[byte] ^= 1 << bit;
                if matches(&flipped, stored) {
                    return Verdict::Corrected(Flip::Data { byte, bit });
                }
            }
        }
        for byte in 0..3 {
            for bit in (0..8).filter(|bit| COUNTED[byte] >> bit & 1 == 1) {
                let mut flipped = stored;
                flipped[byte] ^= 1 << bit;
                if matches(chunk, flipped) {
                    return Verdict::Corrected(Flip::Code { byte, bit });
                }
            }
        }
        Verdict::Unreadable
    }

    #[test]
    fn judging_agrees_with_trying_all_flips() {
        let mut rng = Rng::new(7);
        for round in 0..120 {
            let mut chunk = rng.bytes(CHUNK);
            let mut stored = code_of(&chunk);
            assert_eq!(stored, literal_code(&chunk));
            stored[0] ^= rng.draw() as u8 & 0x88;
            stored[1] ^= rng.draw() as u8 & 0x80;
            stored[2] ^= rng.draw() as u8 & 0x80;
            for _ in 0..round % 5 {
                if rng.chance(1, 3) {
                    stored[rng.below(3)] ^= 1 << rng.below(8);
                } else {
                    chunk[rng.below(CHUNK)] ^= 1 << rng.below(8);
                }
            }
            assert_eq!(judge(&chunk, stored), literal_verdict(&chunk, stored));
        }
    }

    #[test]
    fn any_stored_code_is_judged_as_by_trying_all_flips() {
        let mut rng = Rng::new(8);
        for _ in 0..40 {
            let chunk = rng.bytes(CHUNK);
            let stored = [rng.draw() as u8, rng.draw() as u8, rng.draw() as u8];
            assert_eq!(judge(&chunk, stored), literal_verdict(&chunk, stored));
        }
    }

    #[test]
    fn two_flips_are_always_unreadable() {
        let all: Vec<u32> = flips().keys().copied().collect();
        for (place, one) in all.iter().enumerate() {
            for other in &all[..place] {
                let both = one ^ other;
                assert!(both != 0 && !flips().contains_key(&both));
            }
        }
    }
}
