//! Finding a path, stepping through a directory, reading a file.
//!
//! Each call has a twin that tells besides how many chunks were corrected; a refusal tells none.

use crate::card::counted;
use crate::entry::Entry;
use crate::page::{Format, DATA};
use crate::paths;
use crate::tree::{Checked, Directory, Node};
use crate::Refusal;

/// A call's answer, and how many chunks were corrected in the pages that it needed, each page counted once.
///
/// Every call needs what the check needs; only a read needs more.
#[derive(Clone, Copy, Debug, PartialEq, Eq)]
pub struct Answer<T> {
    pub value: T,
    pub mended: usize,
}

/// The node that names lead to from the root, looked up from the left.
///
/// An absent name is 9, a file where a directory is needed 10 at once.
pub fn locate<'t>(root: &'t Node, names: &[&[u8]]) -> Result<&'t Node, Refusal> {
    names.iter().try_fold(root, |node, name| directory(node)?.child(name).ok_or(Refusal::number(9)))
}

/// The inside of a directory; a file gives 10.
pub fn directory(node: &Node) -> Result<&Directory, Refusal> {
    node.inside.as_ref().ok_or(Refusal::number(10))
}

/// The names of a path; a malformed one gives 8.
pub fn names(path: &[u8]) -> Result<Vec<&[u8]>, Refusal> {
    paths::parse(path).ok_or(Refusal::number(8))
}

/// The entry at a path, for the root its first one.
pub fn find(format: Format, image: &[u8], path: &[u8]) -> Result<Entry, Refusal> {
    find_mended(format, image, path).map(|answer| answer.value)
}

/// `find` with the count.
pub fn find_mended(format: Format, image: &[u8], path: &[u8]) -> Result<Answer<Entry>, Refusal> {
    let checked = Checked::of(format, image)?;
    let value = locate(&checked.root, &names(path)?)?.entry.clone();
    Ok(Answer { value, mended: checked.mended })
}

/// A live entry with its slot, or nothing at the end.
pub type Step = Option<(usize, Entry)>;

/// The first live entry from a slot on, never before slot 2.
pub fn step(format: Format, image: &[u8], path: &[u8], slot: usize) -> Result<Step, Refusal> {
    step_mended(format, image, path, slot).map(|answer| answer.value)
}

/// `step` with the count.
pub fn step_mended(format: Format, image: &[u8], path: &[u8], slot: usize) -> Result<Answer<Step>, Refusal> {
    let checked = Checked::of(format, image)?;
    let inside = directory(locate(&checked.root, &names(path)?)?)?;
    let next = inside.children.iter().find(|child| child.slot >= slot);
    let value = next.map(|child| (child.slot, child.entry.clone()));
    Ok(Answer { value, mended: checked.mended })
}

/// Copies a file's bytes from an offset until file or buffer ends; tells how many.
///
/// An offset beyond the length is 15; the first unreadable page with a byte to copy is 2, last of all.
pub fn read(format: Format, image: &[u8], path: &[u8], offset: usize, buffer: &mut [u8]) -> Result<usize, Refusal> {
    read_mended(format, image, path, offset, buffer).map(|answer| answer.value)
}

/// `read` with the count, to which the pages with a byte to copy add. They are in no other chain, so that the check
/// hasn't counted them.
pub fn read_mended(
    format: Format,
    image: &[u8],
    path: &[u8],
    offset: usize,
    buffer: &mut [u8],
) -> Result<Answer<usize>, Refusal> {
    let checked = Checked::of(format, image)?;
    let node = locate(&checked.root, &names(path)?)?;
    if node.inside.is_some() {
        return Err(Refusal::number(10));
    }
    let length = node.entry.length as usize;
    if offset > length {
        return Err(Refusal::number(15));
    }
    let count = buffer.len().min(length - offset);
    let mut mended = checked.mended;
    if count == 0 {
        return Ok(Answer { value: 0, mended });
    }
    let pages = offset / DATA..=(offset + count - 1) / DATA;
    let mut bytes = Vec::new();
    for index in pages {
        let page = checked.card.slot_page(&node.chain, index);
        bytes.extend(counted(format, image, page, &mut mended)?);
    }
    buffer[..count].copy_from_slice(&bytes[offset % DATA..][..count]);
    Ok(Answer { value: count, mended })
}
