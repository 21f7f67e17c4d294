//! The pages of an image in either format, looked at where they lie and corrected where they can be.

use std::ops::Deref;

use crate::codes::{judge, syndromes, Verdict, CHUNK, CHUNKS};
use crate::{Format, Refusal};

/// Data bytes of a page.
pub const DATA: usize = CHUNKS * CHUNK;
/// Data and spare bytes of a raw page.
const RAW: usize = DATA + 16;

pub type Data = [u8; DATA];

/// A page's data as read: where it lies in the image, or a copy with its flips undone.
pub enum Page<'a> {
    Lent(&'a Data),
    Mended(Box<Data>),
}

impl Deref for Page<'_> {
    type Target = Data;

    #[inline]
    fn deref(&self) -> &Data {
        match self {
            Page::Lent(data) => data,
            Page::Mended(data) => data,
        }
    }
}

/// An image, and how many corrected chunks were met in it.
pub struct Pages<'a> {
    format: Format,
    image: &'a [u8],
    pub mended: usize,
}

impl<'a> Pages<'a> {
    pub fn new(format: Format, image: &'a [u8]) -> Pages<'a> {
        Pages { format, image, mended: 0 }
    }

    /// A page's data as read; refused with 2 where a chunk is unreadable. Its corrected chunks are counted.
    #[inline]
    pub fn read(&mut self, page: usize) -> Result<Page<'a>, Refusal> {
        match self.format {
            Format::Plain => Ok(Page::Lent(array(self.image, page * DATA))),
            Format::Raw => {
                let data = array(self.image, page * RAW);
                let syndromes = syndromes(data, array(self.image, page * RAW + DATA));
                if syndromes == [0; CHUNKS] {
                    return Ok(Page::Lent(data));
                }
                let (data, mended) = correct(data, syndromes).ok_or(Refusal { number: 2, page: Some(page) })?;
                self.mended += mended;
                Ok(data)
            }
        }
    }
}

/// The page with its flips undone and how many chunks had one, or nothing where a chunk is unreadable.
#[cold]
fn correct(data: &Data, syndromes: [u32; CHUNKS]) -> Option<(Page<'_>, usize)> {
    let mut copy = None;
    let mut mended = 0;
    for (chunk, syndrome) in syndromes.into_iter().enumerate() {
        match judge(syndrome) {
            Verdict::Good => continue,
            Verdict::Data { byte, bit } => {
                copy.get_or_insert_with(|| Box::new(*data))[CHUNK * chunk + byte] ^= 1 << bit;
            }
            Verdict::Code => (),
            Verdict::Unreadable => return None,
        }
        mended += 1;
    }
    Some((copy.map_or(Page::Lent(data), Page::Mended), mended))
}

/// The `N` bytes from a place on.
#[inline]
pub fn array<const N: usize>(bytes: &[u8], place: usize) -> &[u8; N] {
    bytes[place..].first_chunk().expect("a place inside")
}

#[inline]
pub fn half(data: &Data, place: usize) -> u16 {
    u16::from_le_bytes(*array(data, place))
}

#[inline]
pub fn word(data: &Data, place: usize) -> u32 {
    u32::from_le_bytes(*array(data, place))
}
