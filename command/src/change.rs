//! The five changes of a card.

use ps2card_sys as calls;

use crate::card::verdict;
use crate::{Card, Refusal, Stamp};

impl<B: AsMut<[u8]>> Card<B> {
    /// Creates a file that holds these bytes.
    ///
    /// ```
    /// use ps2card::{Card, Format, Refusal, Stamp};
    ///
    /// let mut card = Card::fresh(Format::Raw, 56, &Stamp::now())?;
    /// card.create(b"/note", &Stamp::now(), b"kept")?;
    /// assert_eq!(card.bytes(b"/note", 0, 100)?, b"kept");
    /// assert_eq!(card.create(b"/note", &Stamp::now(), b"other"), Err(Refusal::Exists));
    /// # Ok::<(), Refusal>(())
    /// ```
    pub fn create(&mut self, path: &[u8], time: &Stamp, bytes: &[u8]) -> Result<(), Refusal> {
        self.write(calls::ps2card_create, path, time, bytes)
    }

    /// Replaces a file's bytes; the time becomes that of its last change. The new bytes need room beside the old ones.
    ///
    /// ```
    /// use ps2card::{Card, Format, Stamp};
    ///
    /// let mut card = Card::fresh(Format::Raw, 56, &Stamp::now())?;
    /// card.create(b"/note", &Stamp::now(), b"kept")?;
    /// card.replace(b"/note", &Stamp::now(), b"other bytes")?;
    /// assert_eq!(card.bytes(b"/note", 0, 100)?, b"other bytes");
    /// # Ok::<(), ps2card::Refusal>(())
    /// ```
    pub fn replace(&mut self, path: &[u8], time: &Stamp, bytes: &[u8]) -> Result<(), Refusal> {
        self.write(calls::ps2card_replace, path, time, bytes)
    }

    fn write(&mut self, call: calls::Write, path: &[u8], time: &Stamp, bytes: &[u8]) -> Result<(), Refusal> {
        let (format, image) = (self.format.number(), self.image.as_mut());
        let mut page = 0;
        // SAFETY: the call is one of the two functions of this type. The image is one slice, with its length, borrowed
        // mutably, so nothing else lent overlaps it; path and bytes are one slice each, the time is 8 bytes, all three
        // only read; the page is a place of its own. All outlive the call.
        let number = unsafe {
            call(
                format,
                image.as_mut_ptr(),
                image.len(),
                path.as_ptr(),
                path.len(),
                time.0.as_ptr(),
                bytes.as_ptr(),
                bytes.len(),
                &mut page,
            )
        };
        verdict(number, page)
    }

    /// Deletes a file.
    ///
    /// ```
    /// use ps2card::{Card, Format, Refusal, Stamp};
    ///
    /// let mut card = Card::fresh(Format::Raw, 56, &Stamp::now())?;
    /// card.create(b"/note", &Stamp::now(), b"kept")?;
    /// card.delete(b"/note")?;
    /// assert_eq!(card.delete(b"/note"), Err(Refusal::Absent));
    /// # Ok::<(), Refusal>(())
    /// ```
    pub fn delete(&mut self, path: &[u8]) -> Result<(), Refusal> {
        let (format, image) = (self.format.number(), self.image.as_mut());
        let mut page = 0;
        // SAFETY: the image is one slice, with its length, borrowed mutably, so the path, a slice that is only read,
        // does not overlap it; the page is a place of its own. All outlive the call.
        let number = unsafe {
            calls::ps2card_delete(format, image.as_mut_ptr(), image.len(), path.as_ptr(), path.len(), &mut page)
        };
        verdict(number, page)
    }

    /// Makes an empty directory.
    ///
    /// ```
    /// use ps2card::{Card, Format, Kind, Refusal, Stamp};
    ///
    /// let mut card = Card::fresh(Format::Raw, 56, &Stamp::now())?;
    /// card.make_dir(b"/SAVE", &Stamp::now())?;
    /// assert_eq!(card.find(b"/SAVE")?.kind(), Kind::Directory);
    /// card.remove_dir(b"/SAVE")?;
    /// assert_eq!(card.remove_dir(b"/"), Err(Refusal::BadPath));
    /// # Ok::<(), Refusal>(())
    /// ```
    pub fn make_dir(&mut self, path: &[u8], time: &Stamp) -> Result<(), Refusal> {
        let (format, image) = (self.format.number(), self.image.as_mut());
        let (time, mut page) = (time.0.as_ptr(), 0);
        // SAFETY: the image is one slice, with its length, borrowed mutably, so nothing else lent overlaps it; the path
        // is one slice and the time 8 bytes, both only read; the page is a place of its own. All outlive the call.
        let number = unsafe {
            calls::ps2card_make_dir(format, image.as_mut_ptr(), image.len(), path.as_ptr(), path.len(), time, &mut page)
        };
        verdict(number, page)
    }

    /// Removes an empty directory.
    pub fn remove_dir(&mut self, path: &[u8]) -> Result<(), Refusal> {
        let (format, image) = (self.format.number(), self.image.as_mut());
        let mut page = 0;
        // SAFETY: the image is one slice, with its length, borrowed mutably, so the path, a slice that is only read,
        // does not overlap it; the page is a place of its own. All outlive the call.
        let number = unsafe {
            calls::ps2card_remove_dir(format, image.as_mut_ptr(), image.len(), path.as_ptr(), path.len(), &mut page)
        };
        verdict(number, page)
    }
}
