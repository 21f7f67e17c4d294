//! A card over an image, owned or borrowed.

use crate::{Format, Refusal};

/// What the check counts. Free, reached, orphaned and held back add up to the allocatable clusters.
#[derive(Clone, Copy, Debug, Default, PartialEq, Eq)]
pub struct Counts {
    /// All clusters of the card.
    pub clusters: u32,
    /// Allocatable clusters that the table has as free and a change can take: so many times 1,024 bytes are left.
    pub free: usize,
    /// Those that the chain of a directory or a file reaches.
    pub reached: usize,
    /// Those that the table has not as free and that no chain reaches.
    pub orphaned: usize,
    /// Held back: those that the table has as free, but that no change takes, because they lie in the reserved tail of a
    /// card of 8,192 clusters, from index 8,000 on, or in an erase block that the card lists as bad.
    pub held: usize,
    /// Chunks of 128 bytes that were mended, as [`Mended`](crate::Mended) says, in the pages that the check needs.
    pub mended: usize,
}

/// A card: an image and its format. The image may be any bytes; every call checks it first and answers a refusal where
/// it is no sound card of that format.
///
/// `Card` alone owns its image. [`CardRef`] borrows one to look at it, [`CardMut`] to change it in place; what they can
/// do is said once, by what the image lends.
///
/// ```
/// use ps2card::{Card, CardMut, CardRef, Format, Stamp};
///
/// let time = Stamp::parse("2000-02-29T12:34:56").unwrap();
/// let mut image: Vec<u8> = Card::fresh(Format::Plain, 56, &time)?.into_image();
///
/// let mut changing: CardMut = Card::plain(&mut image[..]);
/// changing.make_dir(b"/SAVE", &time)?;
///
/// let looking: CardRef = Card::plain(&image[..]);
/// assert_eq!(looking.check()?, Card::new(Format::Plain, image.clone()).check()?);
/// # Ok::<(), ps2card::Refusal>(())
/// ```
#[derive(Clone, Copy, Debug, PartialEq, Eq)]
pub struct Card<B = Vec<u8>> {
    pub(crate) format: Format,
    pub(crate) image: B,
}

/// A card over a borrowed image, to look at.
pub type CardRef<'a> = Card<&'a [u8]>;

/// A card over a borrowed image, to change in place.
pub type CardMut<'a> = Card<&'a mut [u8]>;

/// The refusal that a call told, if it told one.
pub(crate) fn verdict(number: u32, page: usize) -> Result<(), Refusal> {
    match Refusal::told(number, page) {
        Some(refusal) => Err(refusal),
        None => Ok(()),
    }
}

impl<B> Card<B> {
    /// A card of this format over these bytes. Nothing is checked yet.
    pub const fn new(format: Format, image: B) -> Card<B> {
        Card { format, image }
    }

    /// A raw card, with spare bytes.
    pub const fn raw(image: B) -> Card<B> {
        Card::new(Format::Raw, image)
    }

    /// A plain card, without them.
    pub const fn plain(image: B) -> Card<B> {
        Card::new(Format::Plain, image)
    }

    /// The image's format, as it was said.
    pub const fn format(&self) -> Format {
        self.format
    }

    /// The image, handed back.
    pub fn into_image(self) -> B {
        self.image
    }
}

impl<B: AsRef<[u8]>> Card<B> {
    /// The image's bytes.
    pub fn image(&self) -> &[u8] {
        self.image.as_ref()
    }
}
