//! A directory entry: one page of a directory.

use crate::names;
use crate::page::{half, put_half, put_word, word, Data, CLUSTER_DATA, DATA};
use crate::time::Time;

pub const EXISTS: u16 = 0x8000;
pub const DIRECTORY: u16 = 0x20;
pub const FILE: u16 = 0x10;
/// Where this bit is clear, a change is refused with 16.
pub const WRITE: u16 = 0x0002;

/// The first cluster of a file of length 0.
pub const NO_CLUSTER: u32 = 0xFFFF_FFFF;

/// An entry's fields as read.
#[derive(Clone, Debug, PartialEq, Eq)]
pub struct Entry {
    pub mode: u16,
    pub length: u32,
    pub created: Time,
    pub first_cluster: u32,
    pub dir_entry: u32,
    pub modified: Time,
    pub attribute: u32,
    pub name_field: [u8; names::FIELD],
}

fn eight(data: &Data, at: usize) -> Time {
    data[at..at + 8].try_into().expect("eight bytes")
}

impl Entry {
    pub fn parse(data: &Data) -> Entry {
        Entry {
            mode: half(data, 0x00),
            length: word(data, 0x04),
            created: eight(data, 0x08),
            first_cluster: word(data, 0x10),
            dir_entry: word(data, 0x14),
            modified: eight(data, 0x18),
            attribute: word(data, 0x20),
            name_field: data[0x40..0x60].try_into().expect("a name field"),
        }
    }

    /// Puts the fields into a page's data; its other bytes stay.
    pub fn put(&self, data: &mut Data) {
        put_half(data, 0x00, self.mode);
        put_word(data, 0x04, self.length);
        data[0x08..0x10].copy_from_slice(&self.created);
        put_word(data, 0x10, self.first_cluster);
        put_word(data, 0x14, self.dir_entry);
        data[0x18..0x20].copy_from_slice(&self.modified);
        put_word(data, 0x20, self.attribute);
        data[0x40..0x60].copy_from_slice(&self.name_field);
    }

    /// The page of an entry made new: the fields, all else zero.
    pub fn page(&self) -> Data {
        let mut data = [0; DATA];
        self.put(&mut data);
        data
    }

    pub fn is_live(&self) -> bool {
        self.mode & EXISTS != 0
    }

    pub fn is_directory(&self) -> bool {
        self.mode & DIRECTORY != 0
    }

    /// Whether the write bit is set.
    pub fn is_writable(&self) -> bool {
        self.mode & WRITE != 0
    }

    /// The name before the first zero, if there is a zero.
    pub fn name(&self) -> Option<&[u8]> {
        names::in_field(&self.name_field)
    }

    /// Clusters a file of this length, or a directory of this many entries, needs.
    pub fn clusters_needed(&self) -> usize {
        let unit = if self.is_directory() { 2 } else { CLUSTER_DATA };
        (self.length as usize).div_ceil(unit)
    }
}

/// A name field filled up with zeros; the name has at most 31 bytes.
pub fn name_field(name: &[u8]) -> [u8; names::FIELD] {
    let mut field = [0; names::FIELD];
    field[..name.len()].copy_from_slice(name);
    field
}
