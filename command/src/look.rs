//! The calls that look at a card.

use std::ops::RangeInclusive;

use ps2card_sys as calls;

use crate::card::verdict;
use crate::{Card, Counts, Entry, Refusal};

/// How many minutes the times of a listing may be ahead of Japan's, or behind it where they are below zero. It is a
/// zone's minutes ahead of UTC less 540; every zone is among them, from 12 hours behind UTC to 14 ahead.
pub const MINUTES: RangeInclusive<i32> = -1_260..=300;

/// Bytes of the longest line of an entry in the listing: kind, number, path and time, three blanks and the line's end.
const MOST_LINE: usize = 1 + 10 + 256 + 19 + 4;
/// Room for the lines of the counts, each with the most that a card can have: its clusters, four chunks of each page.
const COUNT_LINES: usize = "card 65536\nfree 65536\nreached 65536\norphaned 65536\nheld 65536\nmended 524288\n".len();

impl<B: AsRef<[u8]>> Card<B> {
    /// The check, with its counts. It reads no file data: only a read of a file tells whether its bytes are readable.
    ///
    /// ```
    /// use ps2card::{Card, Format, Refusal, Stamp};
    ///
    /// let card = Card::fresh(Format::Raw, 56, &Stamp::now())?;
    /// let counts = card.check()?;
    /// assert_eq!((counts.clusters, counts.free, counts.reached, counts.orphaned, counts.held), (56, 29, 1, 0, 0));
    /// // The standard card has 8,135 allocatable clusters: 8,000 that changes can take, and its reserved tail.
    /// let counts = Card::fresh(Format::Raw, 8_192, &Stamp::now())?.check()?;
    /// assert_eq!((counts.free, counts.reached, counts.orphaned, counts.held), (7_999, 1, 0, 135));
    /// // Block 3, clusters 24 to 31 of the card, is listed as bad: nothing new goes there.
    /// let mut image = Card::fresh(Format::Plain, 56, &Stamp::now())?.into_image();
    /// image[0xD0..0xD4].copy_from_slice(&3_u32.to_le_bytes());
    /// let counts = Card::plain(image).check()?;
    /// assert_eq!((counts.free, counts.reached, counts.orphaned, counts.held), (21, 1, 0, 8));
    /// assert_eq!(Card::raw(&b"no card"[..]).check(), Err(Refusal::BadLength));
    /// # Ok::<(), Refusal>(())
    /// ```
    pub fn check(&self) -> Result<Counts, Refusal> {
        let image = self.image();
        let (mut counts, mut page) = (Counts::default(), 0);
        // SAFETY: pointer and length are those of one slice, which is only read; the seven numbers are places of their
        // own, and all of them outlive the call.
        let number = unsafe {
            calls::ps2card_check(
                self.format.number(),
                image.as_ptr(),
                image.len(),
                &mut page,
                &mut counts.clusters,
                &mut counts.free,
                &mut counts.reached,
                &mut counts.orphaned,
                &mut counts.held,
                &mut counts.mended,
            )
        };
        verdict(number, page).map(|()| counts)
    }

    /// The entry at a path, for the root its first one.
    ///
    /// ```
    /// use ps2card::{Card, Format, Kind, Refusal, Stamp};
    ///
    /// let card = Card::fresh(Format::Raw, 56, &Stamp::now())?;
    /// let root = card.find(b"/")?;
    /// assert_eq!((root.kind(), root.length, root.name()), (Kind::Directory, 2, &b"."[..]));
    /// assert_eq!(card.find(b"/none"), Err(Refusal::Absent));
    /// # Ok::<(), Refusal>(())
    /// ```
    pub fn find(&self, path: &[u8]) -> Result<Entry, Refusal> {
        self.find_mended(path).map(|found| found.answer)
    }

    /// The first live entry of a directory from a slot on, never before slot 2, with its slot; nothing at the end.
    ///
    /// ```
    /// use ps2card::{Card, Format, Stamp};
    ///
    /// let mut card = Card::fresh(Format::Raw, 56, &Stamp::now())?;
    /// card.make_dir(b"/SAVE", &Stamp::now())?;
    /// let (slot, entry) = card.step(b"/", 0)?.expect("an entry");
    /// assert_eq!((slot, entry.name()), (2, &b"SAVE"[..]));
    /// assert_eq!(card.step(b"/", slot + 1)?, None);
    /// # Ok::<(), ps2card::Refusal>(())
    /// ```
    pub fn step(&self, path: &[u8], slot: u32) -> Result<Option<(u32, Entry)>, Refusal> {
        self.step_mended(path, slot).map(|stepped| stepped.answer)
    }

    /// Every live entry of a directory after its first two, in slot order. Each is a step with a check of its own:
    /// [`Card::tree`] has kinds, lengths, paths and times of change of the whole card by one check.
    pub fn entries(&self, path: &[u8]) -> Result<Vec<Entry>, Refusal> {
        let mut entries = Vec::new();
        let mut slot = 2;
        while let Some((at, entry)) = self.step(path, slot)? {
            entries.push(entry);
            slot = at + 1;
        }
        Ok(entries)
    }

    /// Copies a file's bytes from an offset until file or buffer ends, and tells how many. A refusal leaves the buffer,
    /// and an unreadable page among those with a byte to copy is one.
    ///
    /// ```
    /// use ps2card::{Card, Format, Refusal, Stamp};
    ///
    /// let mut card = Card::fresh(Format::Raw, 56, &Stamp::now())?;
    /// card.create(b"/note", &Stamp::now(), b"kept")?;
    /// let mut buffer = [0; 3];
    /// assert_eq!((card.read(b"/note", 2, &mut buffer)?, buffer), (2, *b"pt\0"));
    /// assert_eq!(card.read(b"/note", 5, &mut buffer), Err(Refusal::BadOffset));
    /// # Ok::<(), Refusal>(())
    /// ```
    pub fn read(&self, path: &[u8], offset: usize, buffer: &mut [u8]) -> Result<usize, Refusal> {
        self.read_mended(path, offset, buffer).map(|read| read.answer)
    }

    /// A file's bytes from an offset on, at most so many.
    pub fn bytes(&self, path: &[u8], offset: usize, most: usize) -> Result<Vec<u8>, Refusal> {
        self.bytes_mended(path, offset, most).map(|read| read.answer)
    }

    /// The listing: the counts, then every entry in tree order, a line each, with the time of its last change in Japan.
    ///
    /// ```
    /// use ps2card::{Card, Format, Stamp};
    ///
    /// let time = Stamp::parse("2000-02-29T12:34:56").unwrap();
    /// let mut card = Card::fresh(Format::Raw, 56, &time)?;
    /// card.make_dir(b"/SAVE", &time)?;
    /// card.create(b"/SAVE/A", &time, &[0; 1500])?;
    /// let counts = "card 56\nfree 24\nreached 6\norphaned 0\nheld 0\nmended 0\n";
    /// let entries = "d 3 /SAVE 2000-02-29 12:34:56\nf 1500 /SAVE/A 2000-02-29 12:34:56\n";
    /// assert_eq!(card.list()?, format!("{counts}{entries}").as_bytes());
    /// # Ok::<(), ps2card::Refusal>(())
    /// ```
    pub fn list(&self) -> Result<Vec<u8>, Refusal> {
        self.list_at(0)
    }

    /// [`Card::list`] with every time shifted: so many minutes ahead of Japan's, or behind it where they are below zero.
    /// A number outside [`MINUTES`] is refused before all else. An invalid time, and one that the shift takes out of
    /// the years 1980 to 9999, is the word `unknown`.
    ///
    /// ```
    /// use ps2card::{Card, Format, Refusal, Stamp};
    ///
    /// let mut card = Card::fresh(Format::Raw, 56, &Stamp::now())?;
    /// card.create(b"/A", &Stamp::parse("2000-03-01T08:59:59").unwrap(), b"")?;
    /// // UTC is nine hours behind Japan.
    /// assert!(card.list_at(-540)?.ends_with(b"\nf 0 /A 2000-02-29 23:59:59\n"));
    /// assert_eq!(Card::raw(&b"no card"[..]).list_at(301), Err(Refusal::BadShift));
    /// # Ok::<(), Refusal>(())
    /// ```
    pub fn list_at(&self, minutes: i32) -> Result<Vec<u8>, Refusal> {
        // No entry without a page of its own: one call will do, so one check. What is longer than a card is refused.
        let pages = self.image().len().min(self.format.most_bytes()) / self.format.page_bytes();
        let mut text = vec![0; COUNT_LINES + pages * MOST_LINE];
        let length = self.list_into(minutes, &mut text);
        if length > text.len() {
            text.resize(length, 0);
            self.list_into(minutes, &mut text);
        }
        text.truncate(length);
        text.shrink_to_fit();
        match Refusal::listed(&text) {
            Some(refusal) => Err(refusal),
            None => Ok(text),
        }
    }

    /// Writes as much of the listing, or of a refusal's line, as fits; the whole text's length.
    fn list_into(&self, minutes: i32, text: &mut [u8]) -> usize {
        let (format, image) = (self.format.number(), self.image());
        // SAFETY: the image is one slice, with its length, and only read; the text is borrowed mutably, so it does not
        // overlap it. Both outlive the call.
        unsafe { calls::ps2card_list(format, image.as_ptr(), image.len(), minutes, text.as_mut_ptr(), text.len()) }
    }
}
