//! The five changes. Each is judged whole before the first byte is written: after the check 8, 14, 9, 10, 11, 13, 16
//! and 12 in this order.

use crate::card::Card;
use crate::edit::Edit;
use crate::entry::{name_field, Entry, EXISTS, NO_CLUSTER};
use crate::lookup::{directory, locate, names};
use crate::page::{put_half, put_word, Format, CLUSTER_DATA, DATA};
use crate::paths;
use crate::time::{self, Time};
use crate::tree::{Checked, Node};
use crate::Refusal;

const FILE_MODE: u16 = 0x8417;
const DIRECTORY_MODE: u16 = 0x8427;

/// One change with all it is given.
#[derive(Clone, Debug, PartialEq, Eq)]
pub enum Change {
    Create { path: Vec<u8>, time: Time, data: Vec<u8> },
    Replace { path: Vec<u8>, time: Time, data: Vec<u8> },
    Delete { path: Vec<u8> },
    MakeDir { path: Vec<u8>, time: Time },
    RemoveDir { path: Vec<u8> },
}

impl Change {
    pub fn apply(&self, format: Format, image: &mut [u8]) -> Result<(), Refusal> {
        match self {
            Change::Create { path, time, data } => create(format, image, path, time, data),
            Change::Replace { path, time, data } => replace(format, image, path, time, data),
            Change::Delete { path } => delete(format, image, path),
            Change::MakeDir { path, time } => make_dir(format, image, path, time),
            Change::RemoveDir { path } => remove_dir(format, image, path),
        }
    }

    pub fn path(&self) -> &[u8] {
        match self {
            Change::Create { path, .. }
            | Change::Replace { path, .. }
            | Change::Delete { path }
            | Change::MakeDir { path, .. }
            | Change::RemoveDir { path } => path,
        }
    }

    pub fn is_creation(&self) -> bool {
        matches!(self, Change::Create { .. } | Change::MakeDir { .. })
    }

    pub fn is_removal(&self) -> bool {
        matches!(self, Change::Delete { .. } | Change::RemoveDir { .. })
    }
}

/// Creates a file that holds `data`.
pub fn create(format: Format, image: &mut [u8], path: &[u8], time: &Time, data: &[u8]) -> Result<(), Refusal> {
    let checked = Checked::of(format, image)?;
    let names = changed_names(path)?;
    judge_time(time)?;
    insert(image, checked, &names, time, New::File(data))
}

/// Makes an empty directory.
pub fn make_dir(format: Format, image: &mut [u8], path: &[u8], time: &Time) -> Result<(), Refusal> {
    let checked = Checked::of(format, image)?;
    let names = changed_names(path)?;
    if names.len() == paths::MOST_NAMES {
        return Err(Refusal::number(8));
    }
    judge_time(time)?;
    insert(image, checked, &names, time, New::Directory)
}

/// Replaces a file's bytes: new clusters from those free before, then the old are freed.
pub fn replace(format: Format, image: &mut [u8], path: &[u8], time: &Time, data: &[u8]) -> Result<(), Refusal> {
    let checked = Checked::of(format, image)?;
    let names = changed_names(path)?;
    judge_time(time)?;
    let node = locate(&checked.root, &names)?;
    if node.inside.is_some() {
        return Err(Refusal::number(10));
    }
    judge_locks(&checked.root, &names)?;
    let mut edit = Edit::new(checked.card);
    let chain = edit.take(data.len().div_ceil(CLUSTER_DATA), 0)?.1;
    edit.link(&chain);
    edit.fill(&chain, data);
    edit.alter(image, node.page, |page| {
        put_word(page, 0x04, data.len() as u32);
        put_word(page, 0x10, first_of(&chain));
        page[0x18..0x20].copy_from_slice(time);
    });
    edit.release(&node.chain);
    edit.commit(image);
    Ok(())
}

/// Deletes a file.
pub fn delete(format: Format, image: &mut [u8], path: &[u8]) -> Result<(), Refusal> {
    let checked = Checked::of(format, image)?;
    let names = changed_names(path)?;
    let node = locate(&checked.root, &names)?;
    if node.inside.is_some() {
        return Err(Refusal::number(10));
    }
    judge_locks(&checked.root, &names)?;
    remove(image, checked.card, node);
    Ok(())
}

/// Removes a directory without live entries after the first two.
pub fn remove_dir(format: Format, image: &mut [u8], path: &[u8]) -> Result<(), Refusal> {
    let checked = Checked::of(format, image)?;
    let names = changed_names(path)?;
    let node = locate(&checked.root, &names)?;
    if !directory(node)?.children.is_empty() {
        return Err(Refusal::number(13));
    }
    judge_locks(&checked.root, &names)?;
    remove(image, checked.card, node);
    Ok(())
}

/// The names of a path to change; malformed or the root is 8.
fn changed_names(path: &[u8]) -> Result<Vec<&[u8]>, Refusal> {
    let names = names(path)?;
    if names.is_empty() {
        return Err(Refusal::number(8));
    }
    Ok(names)
}

fn judge_time(time: &Time) -> Result<(), Refusal> {
    time::valid(time).then_some(()).ok_or(Refusal::number(14))
}

/// An entry without the write bit is 16. A directory's is the one in its parent, the root's its own first one; the dots
/// below the root are never asked.
fn judge_lock(node: &Node) -> Result<(), Refusal> {
    node.entry.is_writable().then_some(()).ok_or(Refusal::number(16))
}

/// What stands at the names is locked by its own entry, or by that of the directory right around it; nothing farther up
/// counts.
fn judge_locks(root: &Node, names: &[&[u8]]) -> Result<(), Refusal> {
    let around = &names[..names.len() - 1];
    judge_lock(locate(root, around)?)?;
    judge_lock(locate(root, names)?)
}

/// Clears bit 0x8000 of the entry and the top bit of each table word of its chain.
fn remove(image: &mut [u8], card: Card, node: &Node) {
    let mut edit = Edit::new(card);
    edit.alter(image, node.page, |page| put_half(page, 0x00, node.entry.mode & !EXISTS));
    edit.release(&node.chain);
    edit.commit(image);
}

enum New<'a> {
    File(&'a [u8]),
    Directory,
}

/// Puts a new entry and what belongs to it into the directory around the last name.
fn insert(image: &mut [u8], checked: Checked, names: &[&[u8]], time: &Time, new: New) -> Result<(), Refusal> {
    let (last, on_the_way) = names.split_last().expect("a path to change has a name");
    let parent = locate(&checked.root, on_the_way)?;
    if directory(parent)?.child(last).is_some() {
        return Err(Refusal::number(11));
    }
    judge_lock(parent)?;
    let length = parent.entry.length as usize;
    let slot = new_slot(parent)?;
    let grows = slot == length && length.is_multiple_of(2);

    let mut edit = Edit::new(checked.card);
    let own = match new {
        New::File(data) => data.len().div_ceil(CLUSTER_DATA),
        New::Directory => 1,
    };
    let (growth, chain) = edit.take(own, usize::from(grows))?;
    let mut parent_chain = parent.chain.clone();
    for &cluster in &growth {
        edit.link(&[parent_chain[parent_chain.len() - 1], cluster]);
        edit.write(edit.card.page(cluster, 1), [0; DATA]);
        parent_chain.push(cluster);
    }
    edit.link(&chain);

    let entry = |mode, length, first_cluster, dir_entry, name| Entry {
        mode,
        length,
        created: *time,
        first_cluster,
        dir_entry,
        modified: *time,
        attribute: 0,
        name_field: name_field(name),
    };
    let entry = match new {
        New::File(data) => {
            edit.fill(&chain, data);
            entry(FILE_MODE, data.len() as u32, first_of(&chain), 0, last)
        }
        New::Directory => {
            let here = entry(DIRECTORY_MODE, 0, parent_chain[0] as u32, slot as u32, b".");
            let above = entry(DIRECTORY_MODE, 0, 0, 0, b"..");
            edit.write(edit.card.page(chain[0], 0), here.page());
            edit.write(edit.card.page(chain[0], 1), above.page());
            entry(DIRECTORY_MODE, 2, first_of(&chain), 0, last)
        }
    };
    edit.write(edit.card.slot_page(&parent_chain, slot), entry.page());
    if slot == length {
        edit.alter(image, parent.page, |page| put_word(page, 0x04, length as u32 + 1));
    }
    edit.commit(image);
    Ok(())
}

/// The lowest dead slot from 2, else slot number length.
fn new_slot(parent: &Node) -> Result<usize, Refusal> {
    let live = directory(parent)?.children.iter().map(|child| child.slot);
    let full = (2..).zip(live).take_while(|(slot, live)| slot == live).count();
    Ok(2 + full)
}

/// The first cluster an entry names; a file of length 0 has none.
fn first_of(chain: &[usize]) -> u32 {
    chain.first().map_or(NO_CLUSTER, |&cluster| cluster as u32)
}
