//! Calls straight on the caller's image, with no copy and no guard bytes, for taking times.

use ps2card_sys::{ps2card_create, ps2card_delete, ps2card_make_dir, ps2card_remove_dir, ps2card_replace};
use ps2card_sys::{ps2card_list, ps2card_read, ps2card_to_plain, ps2card_to_raw};
use reader::{Change, Format};

use crate::format::Number;

/// How many bytes were copied; nothing where the call is refused.
pub fn read(format: Format, image: &[u8], path: &[u8], offset: usize, out: &mut [u8]) -> Option<usize> {
    let (mut page, mut count, mut mended) = (0, 0, 0);
    // SAFETY: pointers and lengths are those of slices that do not overlap, and the numbers live here.
    let number = unsafe {
        ps2card_read(
            Number::from(format).0,
            image.as_ptr(),
            image.len(),
            path.as_ptr(),
            path.len(),
            offset,
            out.as_mut_ptr(),
            out.len(),
            &mut page,
            &mut count,
            &mut mended,
        )
    };
    (number == 0).then_some(count)
}

/// How long the whole listing is, in which as much as fits was written.
pub fn list(format: Format, image: &[u8], minutes: i32, out: &mut [u8]) -> usize {
    let number = Number::from(format).0;
    // SAFETY: as in `read`.
    unsafe { ps2card_list(number, image.as_ptr(), image.len(), minutes, out.as_mut_ptr(), out.len()) }
}

/// Whether the change was made.
pub fn apply(format: Format, change: &Change, image: &mut [u8]) -> bool {
    let (format, mut page) = (Number::from(format).0, 0);
    let (image, length, path) = (image.as_mut_ptr(), image.len(), change.path());
    let (name, named) = (path.as_ptr(), path.len());
    // SAFETY: as in `read`; the image alone is written.
    let number = unsafe {
        match change {
            Change::Create { time, data, .. } => {
                ps2card_create(format, image, length, name, named, time.as_ptr(), data.as_ptr(), data.len(), &mut page)
            }
            Change::Replace { time, data, .. } => {
                ps2card_replace(format, image, length, name, named, time.as_ptr(), data.as_ptr(), data.len(), &mut page)
            }
            Change::Delete { .. } => ps2card_delete(format, image, length, name, named, &mut page),
            Change::MakeDir { time, .. } => {
                ps2card_make_dir(format, image, length, name, named, time.as_ptr(), &mut page)
            }
            Change::RemoveDir { .. } => ps2card_remove_dir(format, image, length, name, named, &mut page),
        }
    };
    number == 0
}

/// Whether the raw image was converted.
pub fn to_plain(image: &[u8], out: &mut [u8]) -> bool {
    let mut page = 0;
    // SAFETY: as in `read`.
    unsafe { ps2card_to_plain(image.as_ptr(), image.len(), out.as_mut_ptr(), out.len(), &mut page) == 0 }
}

/// Whether the plain image was converted.
pub fn to_raw(image: &[u8], out: &mut [u8]) -> bool {
    // SAFETY: as in `read`.
    unsafe { ps2card_to_raw(image.as_ptr(), image.len(), out.as_mut_ptr(), out.len()) == 0 }
}
