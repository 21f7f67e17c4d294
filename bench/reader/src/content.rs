//! The tree as document 01 defines it, and the same in tree order with places.

use std::collections::BTreeMap;

use crate::card::Card;
use crate::entry::Entry;
use crate::page::{self, Format, DATA};
use crate::paths;
use crate::time::Time;
use crate::tree::{Checked, Node};
use crate::Refusal;

/// The file bytes of one page; an unreadable page stands as that.
#[derive(Clone, Debug, PartialEq, Eq)]
pub enum Piece {
    Bytes(Vec<u8>),
    Unreadable { bytes: usize },
}

/// What the tree holds for a path. Slot order and directory lengths aren't part of it.
#[derive(Clone, Debug, PartialEq, Eq)]
pub struct Item {
    pub is_directory: bool,
    pub mode: u16,
    pub attribute: u32,
    pub created: Time,
    pub modified: Time,
    /// A file's pages that hold a byte of it, in order; none for a directory.
    pub pieces: Vec<Piece>,
}

impl Item {
    /// The file's bytes, where all its pages are readable.
    pub fn bytes(&self) -> Option<Vec<u8>> {
        let mut bytes = Vec::new();
        for piece in &self.pieces {
            match piece {
                Piece::Bytes(part) => bytes.extend_from_slice(part),
                Piece::Unreadable { .. } => return None,
            }
        }
        Some(bytes)
    }
}

/// Every path with what stands there, `/` included.
pub type Tree = BTreeMap<Vec<u8>, Item>;

/// One path in tree order, with its whole entry.
#[derive(Clone, Debug, PartialEq, Eq)]
pub struct Line {
    pub path: Vec<u8>,
    pub entry: Entry,
    pub item: Item,
}

/// The tree of a card that passes the check.
pub fn tree(format: Format, image: &[u8]) -> Result<Tree, Refusal> {
    Ok(lines(format, image)?.into_iter().map(|line| (line.path, line.item)).collect())
}

/// The tree in tree order: `/`, then slot order, a directory before its inside.
pub fn lines(format: Format, image: &[u8]) -> Result<Vec<Line>, Refusal> {
    let checked = Checked::of(format, image)?;
    let mut lines = Vec::new();
    visit(&checked.root, b"/", &mut |path, node| {
        let item = item(image, &checked.card, node);
        lines.push(Line { path: path.to_vec(), entry: node.entry.clone(), item });
    });
    Ok(lines)
}

/// Visits a node and all below it in tree order, each with its path.
pub fn visit(node: &Node, path: &[u8], see: &mut dyn FnMut(&[u8], &Node)) {
    see(path, node);
    for child in node.inside.iter().flat_map(|inside| &inside.children) {
        let name = child.entry.name().expect("a judged name");
        visit(child, &paths::join(path, name), see);
    }
}

fn item(image: &[u8], card: &Card, node: &Node) -> Item {
    let entry = &node.entry;
    let is_directory = node.inside.is_some();
    let length = if is_directory { 0 } else { entry.length as usize };
    let pieces = (0..length.div_ceil(DATA)).map(|index| {
        let bytes = DATA.min(length - index * DATA);
        match page::read(card.format, image, card.slot_page(&node.chain, index)) {
            Some(data) => Piece::Bytes(data[..bytes].to_vec()),
            None => Piece::Unreadable { bytes },
        }
    });
    Item {
        is_directory,
        mode: entry.mode,
        attribute: entry.attribute,
        created: entry.created,
        modified: entry.modified,
        pieces: pieces.collect(),
    }
}
