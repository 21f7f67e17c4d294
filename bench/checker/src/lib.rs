//! An ordinary checker of PlayStation 2 memory card images. It does the work of the proved check and is only there so
//! that their times can be compared; nothing else should stand on it.

mod codes;
mod entry;
mod names;
mod pages;
mod superblock;
mod tree;

use pages::Pages;
use superblock::Superblock;
use tree::{Walk, USED};

/// Raw pages have 16 spare bytes with their codes, plain ones have none.
#[derive(Clone, Copy, Debug, PartialEq, Eq)]
pub enum Format {
    Raw,
    Plain,
}

/// What an accepted card holds. All but the first and last count table words.
#[derive(Clone, Copy, Debug, PartialEq, Eq)]
pub struct Counts {
    pub clusters: usize,
    pub free: usize,
    pub reached: usize,
    pub orphaned: usize,
    pub held: usize,
    /// Corrected chunks of the pages that the check needed.
    pub mended: usize,
}

/// Why a card isn't accepted: 1 to 7, and for 2 the unreadable page.
#[derive(Clone, Copy, Debug, PartialEq, Eq)]
pub struct Refusal {
    pub number: u32,
    pub page: Option<usize>,
}

impl Refusal {
    fn number(number: u32) -> Refusal {
        Refusal { number, page: None }
    }
}

/// Checks an image: length, superblock, table, then the tree; the first fault met decides.
pub fn check(format: Format, image: &[u8]) -> Result<Counts, Refusal> {
    let clusters = clusters_of(format, image.len()).ok_or(Refusal::number(1))?;
    let mut pages = Pages::new(format, image);
    let superblock = Superblock::read(&mut pages, clusters)?;
    let table = superblock.table(&mut pages)?;
    let reached = Walk::tree(&mut pages, &superblock, &table)?;
    let [free, reached, orphaned, held] = counted(&table, &reached, &superblock.withheld());
    Ok(Counts { clusters, free, reached, orphaned, held, mended: pages.mended })
}

/// Free, reached, orphaned and held back words of the table, each by its own definition.
fn counted(table: &[u32], reached: &[bool], withheld: &[bool]) -> [usize; 4] {
    let mut counts = [0u32; 4];
    for ((&word, &is_reached), &is_withheld) in table.iter().zip(reached).zip(withheld) {
        let is_free = word & USED == 0;
        counts[0] += u32::from(is_free & !is_withheld);
        counts[1] += u32::from(is_reached);
        counts[2] += u32::from(!is_free & !is_reached);
        counts[3] += u32::from(is_free & is_withheld);
    }
    counts.map(|count| count as usize)
}

/// How many clusters an image of this length has, where that is an allowed number.
fn clusters_of(format: Format, length: usize) -> Option<usize> {
    let bytes = match format {
        Format::Raw => 1056,
        Format::Plain => 1024,
    };
    let clusters = length / bytes;
    (length.is_multiple_of(bytes) && clusters.is_multiple_of(8) && (32..=65_536).contains(&clusters))
        .then_some(clusters)
}
