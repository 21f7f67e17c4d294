//! A card in the other format.

use ps2card_sys as calls;

use crate::card::verdict;
use crate::{Card, Format, Refusal};

impl<B: AsRef<[u8]>> Card<B> {
    /// The card in the plain format: the data of every page as read, single wrong bits corrected. The spare bytes are
    /// lost. A plain card is copied as it is.
    ///
    /// Only the length is judged, with 1, and the pages, with 2 for the first unreadable one of all, whether or not
    /// anything stands in it. What they hold need not be a sound card.
    ///
    /// ```
    /// use ps2card::{Card, Format, Refusal, Stamp};
    ///
    /// let raw = Card::fresh(Format::Raw, 56, &Stamp::now())?;
    /// let plain = raw.to_plain()?;
    /// assert_eq!((plain.format(), plain.image().len()), (Format::Plain, 56 * 1_024));
    /// assert_eq!(plain.list(), raw.list());
    ///
    /// let mut image = raw.into_image();
    /// image[7 * 528] ^= 3;
    /// assert_eq!(Card::raw(image).to_plain(), Err(Refusal::UnreadablePage(7)));
    /// # Ok::<(), Refusal>(())
    /// ```
    pub fn to_plain(&self) -> Result<Card, Refusal> {
        self.to_format(Format::Plain)
    }

    /// The card in the raw format: every page with fresh codes, the last four spare bytes zero. A raw card is copied as
    /// it is. Only the length is judged, with 1.
    ///
    /// ```
    /// use ps2card::{Card, Format, Stamp};
    ///
    /// let plain = Card::fresh(Format::Plain, 56, &Stamp::now())?;
    /// let raw = plain.to_raw()?;
    /// assert_eq!((raw.format(), raw.image().len()), (Format::Raw, 56 * 1_056));
    /// assert_eq!(raw.to_plain()?, plain);
    /// # Ok::<(), ps2card::Refusal>(())
    /// ```
    pub fn to_raw(&self) -> Result<Card, Refusal> {
        self.to_format(Format::Raw)
    }

    fn to_format(&self, format: Format) -> Result<Card, Refusal> {
        let mut image = vec![0; self.length_in(format)];
        self.convert_into(format, &mut image)?;
        Ok(Card::new(format, image))
    }

    /// How many bytes [`convert_into`](Card::convert_into) needs, where the image has the length of a card.
    pub fn length_in(&self, format: Format) -> usize {
        self.image().len() / self.format.page_bytes() * format.page_bytes()
    }

    /// Writes the image in a format into a buffer, as [`to_plain`](Card::to_plain) and [`to_raw`](Card::to_raw) give
    /// it. 23 where the buffer isn't exactly as long as needed, after 1 and before 2; a refusal leaves it.
    ///
    /// ```
    /// use ps2card::{Card, Format, Refusal, Stamp};
    ///
    /// let card = Card::fresh(Format::Raw, 56, &Stamp::now())?;
    /// let mut buffer = vec![0; 100_000];
    /// assert_eq!(card.convert_into(Format::Plain, &mut buffer), Err(Refusal::WrongOutput));
    /// card.convert_into(Format::Plain, &mut buffer[..card.length_in(Format::Plain)])?;
    /// # Ok::<(), Refusal>(())
    /// ```
    pub fn convert_into(&self, format: Format, out: &mut [u8]) -> Result<(), Refusal> {
        let image = self.image();
        let mut page = 0;
        // SAFETY: the image is one slice, with its length, and only read; the output is borrowed mutably, so it does not
        // overlap it; the page is a place of its own. All outlive the call.
        let number = match (self.format, format) {
            (Format::Raw, Format::Plain) => unsafe {
                calls::ps2card_to_plain(image.as_ptr(), image.len(), out.as_mut_ptr(), out.len(), &mut page)
            },
            // SAFETY: the same without a page.
            (Format::Plain, Format::Raw) => unsafe {
                calls::ps2card_to_raw(image.as_ptr(), image.len(), out.as_mut_ptr(), out.len())
            },
            (same, _) => return copy(same, image, out),
        };
        verdict(number, page)
    }
}

/// An image in its own format, judged as a conversion judges it.
fn copy(format: Format, image: &[u8], out: &mut [u8]) -> Result<(), Refusal> {
    if !format.is_length(image.len()) {
        return Err(Refusal::BadLength);
    }
    if image.len() != out.len() {
        return Err(Refusal::WrongOutput);
    }
    out.copy_from_slice(image);
    Ok(())
}
