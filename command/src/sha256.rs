//! SHA-256, for the sums that `verify` prints (FIPS 180-4).

/// The first 32 bits of the fractions of the cube roots of the first 64 primes.
const ROUNDS: [u32; 64] = [
    0x428a2f98, 0x71374491, 0xb5c0fbcf, 0xe9b5dba5, 0x3956c25b, 0x59f111f1, 0x923f82a4, 0xab1c5ed5, 0xd807aa98,
    0x12835b01, 0x243185be, 0x550c7dc3, 0x72be5d74, 0x80deb1fe, 0x9bdc06a7, 0xc19bf174, 0xe49b69c1, 0xefbe4786,
    0x0fc19dc6, 0x240ca1cc, 0x2de92c6f, 0x4a7484aa, 0x5cb0a9dc, 0x76f988da, 0x983e5152, 0xa831c66d, 0xb00327c8,
    0xbf597fc7, 0xc6e00bf3, 0xd5a79147, 0x06ca6351, 0x14292967, 0x27b70a85, 0x2e1b2138, 0x4d2c6dfc, 0x53380d13,
    0x650a7354, 0x766a0abb, 0x81c2c92e, 0x92722c85, 0xa2bfe8a1, 0xa81a664b, 0xc24b8b70, 0xc76c51a3, 0xd192e819,
    0xd6990624, 0xf40e3585, 0x106aa070, 0x19a4c116, 0x1e376c08, 0x2748774c, 0x34b0bcb5, 0x391c0cb3, 0x4ed8aa4a,
    0x5b9cca4f, 0x682e6ff3, 0x748f82ee, 0x78a5636f, 0x84c87814, 0x8cc70208, 0x90befffa, 0xa4506ceb, 0xbef9a3f7,
    0xc67178f2,
];

/// The same of the square roots of the first eight.
const START: [u32; 8] =
    [0x6a09e667, 0xbb67ae85, 0x3c6ef372, 0xa54ff53a, 0x510e527f, 0x9b05688c, 0x1f83d9ab, 0x5be0cd19];

/// The sum of bytes, in hex.
pub fn hex(bytes: &[u8]) -> String {
    let mut sum = START;
    let blocks = bytes.chunks_exact(64);
    let rest = blocks.remainder();
    blocks.for_each(|block| take_in(&mut sum, block));
    // The rest, a one bit, zeros, and the length in bits, in one block or two.
    let mut last = [0; 128];
    last[..rest.len()].copy_from_slice(rest);
    last[rest.len()] = 0x80;
    let end = if rest.len() < 56 { 64 } else { 128 };
    last[end - 8..end].copy_from_slice(&(bytes.len() as u64 * 8).to_be_bytes());
    last[..end].chunks_exact(64).for_each(|block| take_in(&mut sum, block));
    sum.iter().map(|word| format!("{word:08x}")).collect()
}

fn take_in(sum: &mut [u32; 8], block: &[u8]) {
    let mut schedule = [0u32; 64];
    for (word, bytes) in schedule.iter_mut().zip(block.chunks_exact(4)) {
        *word = bytes.iter().fold(0, |word, &byte| word << 8 | u32::from(byte));
    }
    for t in 16..64 {
        let small0 = |x: u32| x.rotate_right(7) ^ x.rotate_right(18) ^ x >> 3;
        let small1 = |x: u32| x.rotate_right(17) ^ x.rotate_right(19) ^ x >> 10;
        schedule[t] = small1(schedule[t - 2])
            .wrapping_add(schedule[t - 7])
            .wrapping_add(small0(schedule[t - 15]))
            .wrapping_add(schedule[t - 16]);
    }
    let mut work = *sum;
    for t in 0..64 {
        let [a, b, c, d, e, f, g, h] = work;
        let big1 = e.rotate_right(6) ^ e.rotate_right(11) ^ e.rotate_right(25);
        let big0 = a.rotate_right(2) ^ a.rotate_right(13) ^ a.rotate_right(22);
        let (choice, majority) = (e & f ^ !e & g, a & b ^ a & c ^ b & c);
        let first = h.wrapping_add(big1).wrapping_add(choice).wrapping_add(ROUNDS[t]).wrapping_add(schedule[t]);
        work = [first.wrapping_add(big0).wrapping_add(majority), a, b, c, d.wrapping_add(first), e, f, g];
    }
    sum.iter_mut().zip(work).for_each(|(word, more)| *word = word.wrapping_add(more));
}

#[cfg(test)]
mod tests {
    use super::hex;

    /// Every length around the block's and the padding's bounds, as the independent reader sums it.
    #[test]
    fn as_the_reader_does() {
        let bytes: Vec<u8> = (0..1000u32).map(|place| (place * place % 251) as u8).collect();
        for length in (0..200).chain([511, 512, 513, 999, 1000]) {
            assert_eq!(hex(&bytes[..length]), reader::sha256::hex(&bytes[..length]), "{length} bytes");
        }
        assert_eq!(hex(b"abc"), "ba7816bf8f01cfea414140de5dae2223b00361a396177a9cb410ff61f20015ad");
    }
}
