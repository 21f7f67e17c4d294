//! The five changes.

use ps2card_sys::{ps2card_create, ps2card_delete, ps2card_make_dir, ps2card_remove_dir, ps2card_replace};
use reader::time::Time;
use reader::{Change, Refusal};

use crate::format::Number;
use crate::lent::lend;

/// The refusals of each change, in the order of document 01, with 16 where document 02 puts it; making a directory has
/// those of creating.
const CREATING: [u32; 14] = [1, 2, 3, 4, 5, 6, 7, 8, 14, 9, 10, 11, 16, 12];
const REPLACING: [u32; 13] = [1, 2, 3, 4, 5, 6, 7, 8, 14, 9, 10, 16, 12];
const DELETING: [u32; 11] = [1, 2, 3, 4, 5, 6, 7, 8, 9, 10, 16];
const REMOVING: [u32; 12] = [1, 2, 3, 4, 5, 6, 7, 8, 9, 10, 13, 16];

/// Creates a file that holds `data`.
pub fn create(
    format: impl Into<Number>,
    image: &mut [u8],
    path: &[u8],
    time: &Time,
    data: &[u8],
) -> Result<(), Refusal> {
    let format = format.into().0;
    // SAFETY: the image is a slice of its own, which the library may write; path, time and data are only read;
    // the page's number is a separate place. All live until the call is over.
    lend(image, &CREATING, |at, length, page| unsafe {
        ps2card_create(format, at, length, path.as_ptr(), path.len(), time.as_ptr(), data.as_ptr(), data.len(), page)
    })
}

/// Replaces a file's bytes.
pub fn replace(
    format: impl Into<Number>,
    image: &mut [u8],
    path: &[u8],
    time: &Time,
    data: &[u8],
) -> Result<(), Refusal> {
    let format = format.into().0;
    // SAFETY: as in `create`.
    lend(image, &REPLACING, |at, length, page| unsafe {
        ps2card_replace(format, at, length, path.as_ptr(), path.len(), time.as_ptr(), data.as_ptr(), data.len(), page)
    })
}

/// Deletes a file.
pub fn delete(format: impl Into<Number>, image: &mut [u8], path: &[u8]) -> Result<(), Refusal> {
    let format = format.into().0;
    // SAFETY: as in `create`.
    lend(image, &DELETING, |at, length, page| unsafe {
        ps2card_delete(format, at, length, path.as_ptr(), path.len(), page)
    })
}

/// Makes an empty directory.
pub fn make_dir(format: impl Into<Number>, image: &mut [u8], path: &[u8], time: &Time) -> Result<(), Refusal> {
    let format = format.into().0;
    // SAFETY: as in `create`.
    lend(image, &CREATING, |at, length, page| unsafe {
        ps2card_make_dir(format, at, length, path.as_ptr(), path.len(), time.as_ptr(), page)
    })
}

/// Removes an empty directory.
pub fn remove_dir(format: impl Into<Number>, image: &mut [u8], path: &[u8]) -> Result<(), Refusal> {
    let format = format.into().0;
    // SAFETY: as in `create`.
    lend(image, &REMOVING, |at, length, page| unsafe {
        ps2card_remove_dir(format, at, length, path.as_ptr(), path.len(), page)
    })
}

/// Any of the five.
pub fn apply(format: impl Into<Number>, change: &Change, image: &mut [u8]) -> Result<(), Refusal> {
    match change {
        Change::Create { path, time, data } => create(format, image, path, time, data),
        Change::Replace { path, time, data } => replace(format, image, path, time, data),
        Change::Delete { path } => delete(format, image, path),
        Change::MakeDir { path, time } => make_dir(format, image, path, time),
        Change::RemoveDir { path } => remove_dir(format, image, path),
    }
}
