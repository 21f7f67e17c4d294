//! The codes of a page's four 128-byte chunks, and what a stored code says of its chunk.

/// Bytes of a chunk, and chunks of a page.
pub const CHUNK: usize = 128;
pub const CHUNKS: usize = 4;
/// Bytes of a chunk's code.
pub const CODE: usize = 3;

const HALF: usize = CHUNK / 2;
const HALVES: usize = 2 * CHUNKS;

/// The column bits in their places of code byte 0.
const COLUMNS: u32 = 0x77;
/// Seven bits of a byte's index in its chunk.
const INDEX: u32 = 0x7F;
/// The code bits that count, as one little-endian word.
const COUNTED: u32 = 0x7F_7F77;

/// What each data byte adds: its column bits and, if it has an odd number of ones, a mask for its index from bit 8 on.
static LOOKUP: [u32; 256] = lookup();

const fn lookup() -> [u32; 256] {
    let masks: [u8; 7] = [0x55, 0x33, 0x0F, 0, 0xAA, 0xCC, 0xF0];
    let mut table = [0; 256];
    let mut byte = 0;
    while byte < 256 {
        let mut place = 0;
        while place < masks.len() {
            let ones = (byte as u8 & masks[place]).count_ones();
            table[byte] |= (ones % 2) << place;
            place += 1;
        }
        if (byte as u8).count_ones() % 2 == 1 {
            table[byte] |= INDEX << 8;
        }
        byte += 1;
    }
    table
}

/// What a stored code says of its chunk.
#[derive(Clone, Copy, Debug, PartialEq, Eq)]
pub enum Verdict {
    Good,
    /// This bit of this data byte must flip.
    Data {
        byte: usize,
        bit: u32,
    },
    /// One code bit must flip.
    Code,
    Unreadable,
}

/// For each chunk the sum of what its bytes add: column bits, and from bit 8 on the indices of its odd bytes.
/// All halves of chunks are summed beside each other, so that no sum waits for the one before.
#[inline]
fn sums(page: &[u8; CHUNKS * CHUNK]) -> [u32; CHUNKS] {
    let mut sums = [0; HALVES];
    let mut masks: [u32; HALVES] = std::array::from_fn(|half| COLUMNS | ((half % 2 * HALF) as u32) << 8);
    for place in 0..HALF {
        for half in 0..HALVES {
            sums[half] ^= LOOKUP[usize::from(page[HALF * half + place])] & masks[half];
            masks[half] += 1 << 8;
        }
    }
    std::array::from_fn(|chunk| sums[2 * chunk] ^ sums[2 * chunk + 1])
}

/// The code with this sum, as one little-endian word of three bytes.
#[inline]
fn code(sum: u32) -> u32 {
    let (columns, row) = (sum & COLUMNS, sum >> 8);
    // An odd byte adds 127 - i to code byte 1, which is i with all bits flipped. So the two rows differ by the number
    // of odd bytes, and that is odd where the columns of even and of odd bits differ.
    let flips = INDEX * ((columns ^ columns >> 4) & 1);
    COUNTED ^ (columns | (row ^ flips) << 8 | row << 16)
}

/// For each chunk of a page the counted bits in which its code and the stored one differ.
#[inline]
pub fn syndromes(page: &[u8; CHUNKS * CHUNK], stored: &[u8; CHUNKS * CODE]) -> [u32; CHUNKS] {
    let sums = sums(page);
    std::array::from_fn(|chunk| {
        let [columns, flipped, row] = stored.as_chunks::<CODE>().0[chunk];
        (code(sums[chunk]) ^ u32::from_le_bytes([columns, flipped, row, 0])) & COUNTED
    })
}

/// What has to flip so that no counted bit differs: a data bit makes the halves of each pair complementary.
pub fn judge(syndrome: u32) -> Verdict {
    let [columns, flipped, row, _] = syndrome.to_le_bytes().map(u32::from);
    if syndrome == 0 {
        Verdict::Good
    } else if (columns >> 4 ^ columns & 7) == 7 && (flipped ^ row) == INDEX {
        Verdict::Data { byte: row as usize, bit: columns >> 4 }
    } else if syndrome.count_ones() == 1 {
        Verdict::Code
    } else {
        Verdict::Unreadable
    }
}

#[cfg(test)]
mod tests {
    use super::*;

    const ZERO: [u8; CODE] = [0x77, 0x7F, 0x7F];

    fn with(bytes: &[(usize, u8)]) -> [u8; CHUNK] {
        let mut chunk = [0; CHUNK];
        bytes.iter().for_each(|&(place, byte)| chunk[place] = byte);
        chunk
    }

    fn coded(chunk: &[u8; CHUNK]) -> [u8; CODE] {
        let page = [[0; CHUNK], [0xA5; CHUNK], *chunk, [1; CHUNK]];
        let [columns, flipped, row, _] = code(sums(page.as_flattened().try_into().expect("a page"))[2]).to_le_bytes();
        [columns, flipped, row]
    }

    /// Judges a chunk at each place of a page whose other chunks are zeros.
    fn judged(chunk: &[u8; CHUNK], stored: &[u8; CODE]) -> Verdict {
        let verdicts = [0, 1, 2, 3].map(|place| {
            let (mut page, mut codes) = ([[0; CHUNK]; CHUNKS], [ZERO; CHUNKS]);
            (page[place], codes[place]) = (*chunk, *stored);
            let page = page.as_flattened().try_into().expect("a page");
            let syndromes = syndromes(page, codes.as_flattened().try_into().expect("its codes"));
            let others = syndromes.iter().enumerate().filter(|&(other, _)| other != place);
            assert!(others.into_iter().all(|(_, &syndrome)| judge(syndrome) == Verdict::Good));
            judge(syndromes[place])
        });
        assert_eq!(verdicts, [verdicts[0]; 4]);
        verdicts[0]
    }

    /// The rule word by word: six masks and the index of every odd byte.
    fn literal(chunk: &[u8; CHUNK]) -> [u8; CODE] {
        let mut code = ZERO;
        for (index, &byte) in chunk.iter().enumerate() {
            for (place, mask) in [(0, 0x55), (1, 0x33), (2, 0x0F), (4, 0xAA), (5, 0xCC), (6, 0xF0)] {
                if (byte & mask).count_ones() % 2 == 1 {
                    code[0] ^= 1 << place;
                }
            }
            if byte.count_ones() % 2 == 1 {
                code[1] ^= 127 - index as u8;
                code[2] ^= index as u8;
            }
        }
        code
    }

    /// Seeded chunks, some full of one byte, some sparse.
    fn chunks(count: usize) -> impl Iterator<Item = [u8; CHUNK]> {
        let mut state = 0x0123_4567_89AB_CDEFu64;
        let mut draw = move || {
            state ^= state << 13;
            state ^= state >> 7;
            state ^= state << 17;
            state
        };
        (0..count).map(move |number| {
            let mut chunk = [if number % 3 == 0 { draw() as u8 } else { 0 }; CHUNK];
            let changes = [3, 40, 400][number % 3];
            (0..changes).for_each(|_| chunk[draw() as usize % CHUNK] = draw() as u8);
            chunk
        })
    }

    #[test]
    fn vectors() {
        assert_eq!(coded(&[0; CHUNK]), ZERO);
        assert_eq!(coded(&with(&[(0, 0x01)])), [0x70, 0x00, 0x7F]);
        assert_eq!(coded(&with(&[(127, 0x80)])), [0x07, 0x7F, 0x00]);
        assert_eq!(coded(&with(&[(5, 0x10)])), [0x34, 0x05, 0x7A]);
        assert_eq!(judged(&with(&[(0, 1), (1, 1)]), &ZERO), Verdict::Unreadable);
        assert_eq!(judged(&[0xFF; CHUNK], &[0xFF; CODE]), Verdict::Good);
    }

    #[test]
    fn the_rule_word_by_word() {
        for byte in 0..=255 {
            for place in 0..CHUNK {
                let chunk = with(&[(place, byte)]);
                assert_eq!(coded(&chunk), literal(&chunk), "byte {byte} at {place}");
            }
        }
        for chunk in chunks(30_000) {
            assert_eq!(coded(&chunk), literal(&chunk), "{chunk:?}");
        }
    }

    /// Each of the 1,044 flips is named, ignored bits are no flips, and no two flips are called one.
    #[test]
    fn flips() {
        for chunk in chunks(9) {
            let stored = literal(&chunk);
            let flipped = |flip: usize, chunk: &mut [u8; CHUNK], stored: &mut [u8; CODE]| match flip.checked_sub(1024) {
                None => chunk[flip / 8] ^= 1 << (flip % 8),
                Some(bit) => stored[bit / 8] ^= 1 << (bit % 8),
            };
            let counts = |flip: usize| ![1024 + 3, 1024 + 7, 1024 + 15, 1024 + 23].contains(&flip);
            for one in 0..1024 + 24 {
                let (mut chunk, mut stored) = (chunk, stored);
                flipped(one, &mut chunk, &mut stored);
                let expected = match one {
                    0..1024 => Verdict::Data { byte: one / 8, bit: one as u32 % 8 },
                    _ if counts(one) => Verdict::Code,
                    _ => Verdict::Good,
                };
                assert_eq!(judged(&chunk, &stored), expected, "flip {one}");
                for other in (one + 1..1024 + 24).filter(|&other| counts(one) && counts(other)).step_by(5) {
                    let (mut chunk, mut stored) = (chunk, stored);
                    flipped(other, &mut chunk, &mut stored);
                    assert_eq!(judged(&chunk, &stored), Verdict::Unreadable, "flips {one} and {other}");
                }
            }
        }
    }
}
