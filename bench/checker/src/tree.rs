//! The walk through the tree: directories, entries, chains, and which clusters they reach.

use crate::entry::{self, Entry};
use crate::names::Names;
use crate::pages::Pages;
use crate::superblock::Superblock;
use crate::Refusal;

/// A table word with its top bit clear is free.
pub const USED: u32 = 0x8000_0000;
/// A table word that ends a chain.
const END: u32 = 0xFFFF_FFFF;
/// Data bytes of a cluster.
const CLUSTER: u32 = 1024;

/// The walk's state: the table and which of its clusters have been reached so far.
pub struct Walk<'w, 'a> {
    pages: &'w mut Pages<'a>,
    table: &'w [u32],
    alloc_offset: usize,
    reached: Vec<bool>,
}

impl<'w, 'a> Walk<'w, 'a> {
    /// Walks the whole tree and hands back a mark for each cluster that a chain reaches.
    pub fn tree(pages: &'w mut Pages<'a>, superblock: &Superblock, table: &'w [u32]) -> Result<Vec<bool>, Refusal> {
        let reached = vec![false; table.len()];
        let mut walk = Walk { pages, table, alloc_offset: superblock.alloc_offset, reached };
        walk.root()?;
        Ok(walk.reached)
    }

    /// The root's length stands in its own first entry, which is judged before the chain and not looked at again.
    fn root(&mut self) -> Result<(), Refusal> {
        let first = self.pages.read(self.page(0, 0))?;
        let length = entry::directory_length(&first).filter(|_| entry::is_dots(&first, b".\0"));
        let length = length.ok_or(Refusal::number(7))?;
        self.chain(0, length.div_ceil(2))?;
        self.directory(0, length, 0, 1)
    }

    /// Judges a directory's entries from a slot on, each with its chain and, where it has one, its inside.
    fn directory(&mut self, first: u32, length: u32, depth: usize, from: u32) -> Result<(), Refusal> {
        // The chain is sound, so the length is at most twice the table's.
        let mut names = Names::with_capacity(length as usize - 2);
        let mut cluster = first;
        for slot in from..length {
            let data = self.pages.read(self.page(cluster, slot % 2))?;
            let entry = match slot {
                0 => entry::is_dots(&data, b".\0").then_some(Entry::Nothing),
                1 => entry::is_dots(&data, b"..\0").then_some(Entry::Nothing),
                _ => entry::judge(&data, depth, &mut names),
            };
            match entry.ok_or(Refusal::number(7))? {
                Entry::Nothing => (),
                Entry::File { first, length } => self.chain(first, length.div_ceil(CLUSTER))?,
                Entry::Directory { first, length } => {
                    self.chain(first, length.div_ceil(2))?;
                    self.directory(first, length, depth + 1, 0)?;
                }
            }
            if slot % 2 == 1 {
                cluster = self.table[cluster as usize] & !USED;
            }
        }
        Ok(())
    }

    /// Marks a chain of so many clusters: all used, none reached before, the end mark at exactly the last.
    fn chain(&mut self, first: u32, clusters: u32) -> Result<(), Refusal> {
        let mut cluster = first;
        for left in (0..clusters).rev() {
            let place = cluster as usize;
            let word = *self.table.get(place).ok_or(Refusal::number(6))?;
            if word & USED == 0 || self.reached[place] || (word == END) != (left == 0) {
                return Err(Refusal::number(6));
            }
            self.reached[place] = true;
            cluster = word & !USED;
        }
        Ok(())
    }

    /// The image's page of an allocatable cluster's first or second page.
    fn page(&self, cluster: u32, second: u32) -> usize {
        2 * (self.alloc_offset + cluster as usize) + second as usize
    }
}
