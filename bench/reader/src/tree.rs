//! The check: chains, directories and entries, depth first, the first fault deciding.

use std::collections::{HashMap, HashSet};
use std::fmt;

use crate::card::{counted, needed, Card, Link};
use crate::entry::{Entry, DIRECTORY, FILE, NO_CLUSTER};
use crate::names;
use crate::page::Format;
use crate::Refusal;

/// Directories lie at most this many below the root.
pub const DEEPEST: usize = 7;

const BAD_CHAIN: Refusal = Refusal::number(6);
const BAD_ENTRY: Refusal = Refusal::number(7);

/// Free, reached, orphaned and held back are each counted over the table by their own definition.
#[derive(Clone, Copy, Debug, PartialEq, Eq)]
pub struct Counts {
    pub clusters: usize,
    pub free: usize,
    pub reached: usize,
    pub orphaned: usize,
    pub held: usize,
    /// Corrected chunks in the pages that the check needed, each page counted once.
    pub mended: usize,
}

impl fmt::Display for Counts {
    /// The first lines of a listing.
    fn fmt(&self, out: &mut fmt::Formatter<'_>) -> fmt::Result {
        let Counts { clusters, free, reached, orphaned, held, mended } = self;
        write!(out, "card {clusters}\nfree {free}\nreached {reached}\norphaned {orphaned}\n")?;
        write!(out, "held {held}\nmended {mended}\n")
    }
}

/// A live entry from slot 2 on, or the root by its first entry.
#[derive(Clone, Debug)]
pub struct Node {
    pub slot: usize,
    /// The image's page index of the entry.
    pub page: usize,
    pub entry: Entry,
    pub chain: Vec<usize>,
    /// What is inside a directory; a file has none.
    pub inside: Option<Directory>,
}

/// A directory's entries; the slots from 2 on that no child has are dead.
#[derive(Clone, Debug, Default)]
pub struct Directory {
    pub children: Vec<Node>,
    by_name: HashMap<Vec<u8>, usize>,
}

impl Directory {
    pub fn child(&self, name: &[u8]) -> Option<&Node> {
        self.by_name.get(name).map(|&place| &self.children[place])
    }
}

/// A card that passed the check.
#[derive(Clone, Debug)]
pub struct Checked {
    pub card: Card,
    pub root: Node,
    pub reached: HashSet<usize>,
    /// Corrected chunks in all pages that the check needed.
    pub mended: usize,
}

/// Checks a card: its counts, or the first fault met.
pub fn check(format: Format, image: &[u8]) -> Result<Counts, Refusal> {
    Checked::of(format, image).map(|checked| checked.counts())
}

impl Checked {
    pub fn of(format: Format, image: &[u8]) -> Result<Checked, Refusal> {
        let card = Card::open(format, image)?;
        let mut walk = Walk { image, card: &card, reached: HashSet::new(), mended: card.mended };
        let root = walk.root()?;
        let Walk { reached, mended, .. } = walk;
        Ok(Checked { card, root, reached, mended })
    }

    pub fn counts(&self) -> Counts {
        let end = self.card.alloc_end;
        let is_free = |cluster: &usize| self.card.link(*cluster) == Link::Free;
        let is_reached = |cluster: &usize| self.reached.contains(cluster);
        Counts {
            clusters: self.card.clusters,
            free: self.card.free().count(),
            reached: (0..end).filter(is_reached).count(),
            orphaned: (0..end).filter(|cluster| !is_free(cluster) && !is_reached(cluster)).count(),
            held: self.card.held().count(),
            mended: self.mended,
        }
    }
}

struct Walk<'a> {
    image: &'a [u8],
    card: &'a Card,
    reached: HashSet<usize>,
    mended: usize,
}

impl Walk<'_> {
    /// The root: its first page read and judged, then its chain, then every entry. That page is the entry at slot 0 and
    /// is counted there.
    fn root(&mut self) -> Result<Node, Refusal> {
        let page = self.card.page(0, 0);
        let entry = Entry::parse(&needed(self.card.format, self.image, page)?);
        if !is_dots(&entry, b".") || entry.length < 2 {
            return Err(BAD_ENTRY);
        }
        let chain = self.chain(0, entry.clusters_needed())?;
        let inside = self.directory(&chain, entry.length as usize, 0)?;
        Ok(Node { slot: 0, page, entry, chain, inside: Some(inside) })
    }

    /// A chain of `count` clusters, at least 1: the end mark stands at exactly the last.
    fn chain(&mut self, first: u32, count: usize) -> Result<Vec<usize>, Refusal> {
        let mut chain = Vec::new();
        let mut cluster = first as usize;
        loop {
            if cluster >= self.card.alloc_end {
                return Err(BAD_CHAIN);
            }
            let link = self.card.link(cluster);
            if link == Link::Free || !self.reached.insert(cluster) {
                return Err(BAD_CHAIN);
            }
            chain.push(cluster);
            match link {
                Link::Next(next) if chain.len() < count => cluster = next,
                Link::End if chain.len() == count => return Ok(chain),
                _ => return Err(BAD_CHAIN),
            }
        }
    }

    /// Each entry in order: page, entry rules, its chain, and a directory's inside at once.
    fn directory(&mut self, chain: &[usize], length: usize, depth: usize) -> Result<Directory, Refusal> {
        let mut directory = Directory::default();
        for slot in 0..length {
            let page = self.card.slot_page(chain, slot);
            let entry = Entry::parse(&counted(self.card.format, self.image, page, &mut self.mended)?);
            if slot < 2 {
                if !is_dots(&entry, [b".".as_slice(), b".."][slot]) {
                    return Err(BAD_ENTRY);
                }
            } else if entry.is_live() {
                let name = judge(&entry, depth).ok_or(BAD_ENTRY)?.to_vec();
                let place = directory.children.len();
                if directory.by_name.insert(name, place).is_some() {
                    return Err(BAD_ENTRY);
                }
                directory.children.push(self.node(slot, page, entry, depth)?);
            }
        }
        Ok(directory)
    }

    /// A judged entry's chain, then what is inside it.
    fn node(&mut self, slot: usize, page: usize, entry: Entry, depth: usize) -> Result<Node, Refusal> {
        let chain = match entry.clusters_needed() {
            0 => Vec::new(),
            count => self.chain(entry.first_cluster, count)?,
        };
        let inside = match entry.is_directory() {
            true => Some(self.directory(&chain, entry.length as usize, depth + 1)?),
            false => None,
        };
        Ok(Node { slot, page, entry, chain, inside })
    }
}

/// Entries 0 and 1: live, a directory, not a file, of the given name.
fn is_dots(entry: &Entry, name: &[u8]) -> bool {
    entry.is_live() && entry.mode & (DIRECTORY | FILE) == DIRECTORY && entry.name() == Some(name)
}

/// The rules of one later live entry, in a directory this far below the root; its name if they hold.
fn judge(entry: &Entry, depth: usize) -> Option<&[u8]> {
    let rules = match entry.mode & (DIRECTORY | FILE) {
        DIRECTORY => entry.length >= 2 && depth < DEEPEST,
        FILE => entry.length > 0 || entry.first_cluster == NO_CLUSTER,
        _ => false,
    };
    entry.name().filter(|name| rules && names::allowed(name))
}
