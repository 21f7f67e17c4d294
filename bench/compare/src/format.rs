//! How the library is told the format of an image.

use reader::Format;

/// A format by its number: 0 is raw, 1 is plain, and any other names none.
#[derive(Clone, Copy, Debug, PartialEq, Eq)]
pub struct Number(pub u32);

impl From<Format> for Number {
    fn from(format: Format) -> Number {
        match format {
            Format::Raw => Number(0),
            Format::Plain => Number(1),
        }
    }
}
