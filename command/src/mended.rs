//! The calls that find, step and read, with how much was mended for their answer.

use ps2card_sys as calls;

use crate::card::verdict;
use crate::{Card, Entry, Refusal};

/// An answer, and how many chunks were mended for it.
///
/// A raw page has four chunks of 128 bytes, each with its code. Where a single bit of a chunk or of its code is wrong,
/// reading mends it. Counted are the chunks of the pages that the call needed, each page once: those that the check
/// needs, which are the superblock's, the table's and those of every directory entry, and of a read also the pages that
/// it copies from. Nothing is repaired in the image, so that the next call mends the same chunks again. A plain image
/// has no codes, and nothing to mend.
///
/// ```
/// use ps2card::{Card, Format, Mended, Stamp};
///
/// let mut card = Card::fresh(Format::Raw, 56, &Stamp::now())?;
/// card.create(b"/note", &Stamp::now(), b"kept")?;
/// let mut image = card.into_image();
/// image[100] ^= 4; // One bit in the first chunk of page 0.
/// let worn = Card::raw(&image[..]);
/// assert_eq!(worn.check()?.mended, 1);
/// assert_eq!(worn.bytes_mended(b"/note", 0, 4)?, Mended { answer: b"kept".to_vec(), chunks: 1 });
/// assert_eq!(worn.to_plain()?.check()?.mended, 0);
/// # Ok::<(), ps2card::Refusal>(())
/// ```
#[derive(Clone, Copy, Debug, Default, PartialEq, Eq)]
pub struct Mended<T> {
    /// What the call answers.
    pub answer: T,
    /// Chunks that were mended.
    pub chunks: usize,
}

impl<B: AsRef<[u8]>> Card<B> {
    /// [`Card::find`], with the chunks that were mended.
    ///
    /// ```
    /// use ps2card::{Card, Format, Stamp};
    ///
    /// let mut image = Card::fresh(Format::Raw, 56, &Stamp::now())?.into_image();
    /// image[528 * 20 + 0x40] ^= 1; // One bit in the name of the root's first entry, in page 20 of this card.
    /// let root = Card::raw(image).find_mended(b"/")?;
    /// assert_eq!((root.answer.name(), root.chunks), (&b"."[..], 1));
    /// # Ok::<(), ps2card::Refusal>(())
    /// ```
    pub fn find_mended(&self, path: &[u8]) -> Result<Mended<Entry>, Refusal> {
        let image = self.image();
        let (mut entry, mut page, mut chunks) = (Entry::default(), 0, 0);
        // SAFETY: image and path are one slice each, with its length, and only read; the times are arrays of 8 bytes
        // and the name one of 32, as the header asks; every output is a place of its own and outlives the call.
        let number = unsafe {
            calls::ps2card_find(
                self.format.number(),
                image.as_ptr(),
                image.len(),
                path.as_ptr(),
                path.len(),
                &mut page,
                &mut entry.mode,
                &mut entry.length,
                entry.created.0.as_mut_ptr(),
                &mut entry.first,
                &mut entry.dir_entry,
                entry.modified.0.as_mut_ptr(),
                &mut entry.attribute,
                entry.name_field.as_mut_ptr(),
                &mut chunks,
            )
        };
        verdict(number, page).map(|()| Mended { answer: entry, chunks })
    }

    /// [`Card::step`], with the chunks that were mended, at the end of the directory too.
    ///
    /// ```
    /// use ps2card::{Card, Format, Mended, Stamp};
    ///
    /// let mut image = Card::fresh(Format::Raw, 56, &Stamp::now())?.into_image();
    /// image[512] ^= 1; // One bit of the code of page 0's first chunk.
    /// assert_eq!(Card::raw(image).step_mended(b"/", 2)?, Mended { answer: None, chunks: 1 });
    /// # Ok::<(), ps2card::Refusal>(())
    /// ```
    pub fn step_mended(&self, path: &[u8], slot: u32) -> Result<Mended<Option<(u32, Entry)>>, Refusal> {
        let image = self.image();
        let mut entry = Entry::default();
        let (mut page, mut found, mut at, mut chunks) = (0, 0, 0, 0);
        // SAFETY: as in `find_mended`, with the slot by value and two more numbers that are places of their own.
        let number = unsafe {
            calls::ps2card_step(
                self.format.number(),
                image.as_ptr(),
                image.len(),
                path.as_ptr(),
                path.len(),
                slot,
                &mut page,
                &mut found,
                &mut at,
                &mut entry.mode,
                &mut entry.length,
                entry.created.0.as_mut_ptr(),
                &mut entry.first,
                &mut entry.dir_entry,
                entry.modified.0.as_mut_ptr(),
                &mut entry.attribute,
                entry.name_field.as_mut_ptr(),
                &mut chunks,
            )
        };
        verdict(number, page).map(|()| Mended { answer: (found != 0).then_some((at, entry)), chunks })
    }

    /// [`Card::read`], with the chunks that were mended: a page of the file counts where a byte of it is copied.
    ///
    /// ```
    /// use ps2card::{Card, Format, Mended, Stamp};
    ///
    /// let mut card = Card::fresh(Format::Raw, 56, &Stamp::now())?;
    /// card.create(b"/note", &Stamp::now(), b"kept")?;
    /// // The allocatable clusters of this card start at cluster 10, and a cluster is two pages.
    /// let page = 2 * (10 + card.find(b"/note")?.first as usize);
    /// let mut image = card.into_image();
    /// image[528 * page] ^= 1;
    /// let (card, mut buffer) = (Card::raw(image), [0; 4]);
    /// assert_eq!(card.read_mended(b"/note", 0, &mut buffer)?, Mended { answer: 4, chunks: 1 });
    /// assert_eq!(card.read_mended(b"/note", 4, &mut buffer)?, Mended { answer: 0, chunks: 0 });
    /// assert_eq!((&buffer, card.check()?.mended), (b"kept", 0));
    /// # Ok::<(), ps2card::Refusal>(())
    /// ```
    pub fn read_mended(&self, path: &[u8], offset: usize, buffer: &mut [u8]) -> Result<Mended<usize>, Refusal> {
        let image = self.image();
        let (mut page, mut count, mut chunks) = (0, 0, 0);
        // SAFETY: image and path are one slice each, with its length, and only read; the buffer is borrowed mutably, so
        // it overlaps neither; the three numbers are places of their own. All outlive the call.
        let number = unsafe {
            calls::ps2card_read(
                self.format.number(),
                image.as_ptr(),
                image.len(),
                path.as_ptr(),
                path.len(),
                offset,
                buffer.as_mut_ptr(),
                buffer.len(),
                &mut page,
                &mut count,
                &mut chunks,
            )
        };
        verdict(number, page).map(|()| Mended { answer: count, chunks })
    }

    /// [`Card::bytes`], with the chunks that were mended.
    pub fn bytes_mended(&self, path: &[u8], offset: usize, most: usize) -> Result<Mended<Vec<u8>>, Refusal> {
        // No file has more bytes than the image.
        let mut bytes = vec![0; most.min(self.image().len())];
        let read = self.read_mended(path, offset, &mut bytes)?;
        bytes.truncate(read.answer);
        Ok(Mended { answer: bytes, chunks: read.chunks })
    }
}
