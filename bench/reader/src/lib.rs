//! An independent reader and writer of PlayStation 2 memory card images, raw and plain.
//!
//! It follows document 01, and document 02 where a request has landed, by their
//! words and shares nothing with the library it tests. Every call but the
//! conversions checks the whole card first, then judges its own request; only the
//! listing judges its minutes before that.

pub mod build;
pub mod calendar;
pub mod card;
pub mod change;
pub mod content;
pub mod convert;
pub mod ecc;
mod edit;
pub mod entry;
pub mod listing;
pub mod lookup;
pub mod names;
pub mod page;
pub mod paths;
pub mod rng;
pub mod sha256;
pub mod time;
pub mod tree;

use std::fmt;

pub use change::{create, delete, make_dir, remove_dir, replace, Change};
pub use content::{tree, Item, Piece, Tree};
pub use convert::{to_plain, to_raw};
pub use entry::Entry;
pub use listing::{list, program, tree_text};
pub use lookup::{find, find_mended, read, read_mended, step, step_mended, Answer};
pub use page::Format;
pub use tree::{check, Counts};

/// A refusal: its number in documents 01 and 02, and the image's page index for number 2.
#[derive(Clone, Copy, Debug, PartialEq, Eq, Hash)]
pub struct Refusal {
    pub number: u8,
    pub page: Option<usize>,
}

impl Refusal {
    /// A refusal that carries a number only.
    pub const fn number(number: u8) -> Refusal {
        Refusal { number, page: None }
    }

    /// Number 2: this needed page is unreadable.
    pub const fn unreadable(page: usize) -> Refusal {
        Refusal { number: 2, page: Some(page) }
    }
}

impl fmt::Display for Refusal {
    /// The listing's line: `refused N`, and the page for number 2.
    fn fmt(&self, out: &mut fmt::Formatter<'_>) -> fmt::Result {
        match self.page {
            Some(page) => write!(out, "refused {} {}", self.number, page),
            None => write!(out, "refused {}", self.number),
        }
    }
}

impl std::error::Error for Refusal {}
