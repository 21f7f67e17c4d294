//! The conversions.

use ps2card_sys::{ps2card_to_plain, ps2card_to_raw};
use reader::Refusal;

use crate::lent::lend;

/// The refusals of each conversion, in the order of document 02; a plain image has no unreadable page.
const TO_PLAIN: [u32; 3] = [1, 23, 2];
const TO_RAW: [u32; 2] = [1, 23];

/// Writes a raw image's data.
pub fn to_plain(image: &[u8], output: &mut [u8]) -> Result<(), Refusal> {
    // SAFETY: the image is only read; the output is a slice of its own, which the library may write; the page's
    // number is a separate place. All live until the call is over.
    lend(output, &TO_PLAIN, |at, length, page| unsafe {
        ps2card_to_plain(image.as_ptr(), image.len(), at, length, page)
    })
}

/// Writes a plain image's data with codes.
pub fn to_raw(image: &[u8], output: &mut [u8]) -> Result<(), Refusal> {
    // SAFETY: as in `to_plain`.
    lend(output, &TO_RAW, |at, length, _| unsafe { ps2card_to_raw(image.as_ptr(), image.len(), at, length) })
}
