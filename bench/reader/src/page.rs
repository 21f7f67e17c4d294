//! Pages of an image in either format. Only this file knows how many bytes a page and a cluster have.

use std::ops::Range;

use crate::ecc::{self, Flip, Verdict, CHUNK};

/// Data bytes in a page.
pub const DATA: usize = 512;
/// Data bytes in a cluster of two pages.
pub const CLUSTER_DATA: usize = 2 * DATA;
/// Spare bytes after the data of a raw page: three of code for each chunk, then four that are ignored.
const SPARE: usize = 16;
/// Chunks in a page.
pub const CHUNKS: usize = DATA / CHUNK;

/// A page's data.
pub type Data = [u8; DATA];

/// For each chunk of a page whether it was corrected, in a data bit or in a code bit.
pub type Mended = [bool; CHUNKS];

/// How the pages lie in an image. The caller says which it is; it is never guessed.
#[derive(Clone, Copy, Debug, PartialEq, Eq, Hash)]
pub enum Format {
    /// Data and spare bytes.
    Raw,
    /// Data alone: no page is unreadable.
    Plain,
}

impl Format {
    pub const BOTH: [Format; 2] = [Format::Raw, Format::Plain];

    pub const fn other(self) -> Format {
        match self {
            Format::Raw => Format::Plain,
            Format::Plain => Format::Raw,
        }
    }

    /// Bytes of a page in the image.
    pub const fn page_bytes(self) -> usize {
        match self {
            Format::Raw => DATA + SPARE,
            Format::Plain => DATA,
        }
    }

    /// Bytes of a cluster in the image.
    pub const fn cluster_bytes(self) -> usize {
        2 * self.page_bytes()
    }

    /// Where a page's bytes lie in the image.
    pub const fn place(self, page: usize) -> Range<usize> {
        page * self.page_bytes()..(page + 1) * self.page_bytes()
    }
}

/// A page's data as read, or nothing where a chunk is unreadable.
pub fn read(format: Format, image: &[u8], page: usize) -> Option<Data> {
    read_mended(format, image, page).map(|(data, _)| data)
}

/// The same, and which chunks were corrected; a plain page has no code by which one could be.
pub fn read_mended(format: Format, image: &[u8], page: usize) -> Option<(Data, Mended)> {
    let (stored, spare) = image[format.place(page)].split_at(DATA);
    let mut data: Data = stored.try_into().expect("a page's data");
    let mut mended = [false; CHUNKS];
    for ((chunk, code), mended) in data.chunks_mut(CHUNK).zip(spare.chunks(3)).zip(&mut mended) {
        match ecc::judge(chunk, [code[0], code[1], code[2]]) {
            Verdict::Good => {}
            Verdict::Corrected(flip) => {
                *mended = true;
                if let Flip::Data { byte, bit } = flip {
                    chunk[byte] ^= 1 << bit;
                }
            }
            Verdict::Unreadable => return None,
        }
    }
    Some((data, mended))
}

/// Writes a page's data; a raw page gets a fresh code, and its spare bytes 12 to 15 stay.
pub fn write(format: Format, image: &mut [u8], page: usize, data: &Data) {
    let (stored, spare) = image[format.place(page)].split_at_mut(DATA);
    stored.copy_from_slice(data);
    // A plain page has no spare bytes, so no chunk gets a code.
    for (chunk, code) in data.chunks(CHUNK).zip(spare.chunks_mut(3)) {
        code.copy_from_slice(&ecc::code_of(chunk));
    }
}

/// The little-endian half at an offset.
pub fn half(data: &[u8], at: usize) -> u16 {
    u16::from_le_bytes([data[at], data[at + 1]])
}

/// The little-endian word at an offset.
pub fn word(data: &[u8], at: usize) -> u32 {
    u32::from_le_bytes([data[at], data[at + 1], data[at + 2], data[at + 3]])
}

pub fn put_half(data: &mut [u8], at: usize, value: u16) {
    data[at..at + 2].copy_from_slice(&value.to_le_bytes());
}

pub fn put_word(data: &mut [u8], at: usize, value: u32) {
    data[at..at + 4].copy_from_slice(&value.to_le_bytes());
}

#[cfg(test)]
mod tests {
    use super::*;
    use crate::rng::Rng;

    #[test]
    fn sizes() {
        assert_eq!((Format::Raw.page_bytes(), Format::Raw.cluster_bytes()), (528, 1056));
        assert_eq!((Format::Plain.page_bytes(), Format::Plain.cluster_bytes()), (512, 1024));
        assert_eq!((Format::Raw.place(3), Format::Plain.place(3)), (1584..2112, 1536..2048));
    }

    /// Whatever the bytes are, a plain page is just them, and writing one changes no other byte.
    #[test]
    fn plain_pages() {
        let mut rng = Rng::new(512);
        let before = rng.bytes(5 * 512);
        for page in 0..5 {
            let data: Data = rng.bytes(512).try_into().expect("a page's data");
            assert_eq!(read(Format::Plain, &before, page).as_ref().map(|data| &data[..]), before.chunks(512).nth(page));
            assert_eq!(read_mended(Format::Plain, &before, page).map(|(_, mended)| mended), Some([false; 4]));
            let mut image = before.clone();
            write(Format::Plain, &mut image, page, &data);
            let expected = [&before[..512 * page], &data, &before[512 * (page + 1)..]].concat();
            assert!(image == expected, "page {page}");
        }
    }
}
