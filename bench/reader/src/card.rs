//! The superblock and the allocation table.

use crate::page::{self, half, word, Data, Format, DATA};
use crate::Refusal;

pub const FORMAT: &[u8; 28] = b"Sony PS2 Memory Card Format ";
pub const VERSIONS: [&[u8; 12]; 2] = [b"1.1.0.0\0\0\0\0\0", b"1.2.0.0\0\0\0\0\0"];

/// Clusters in an erase block.
pub const BLOCK: u64 = 8;
/// Clusters of the smallest card and of the greatest.
pub const LEAST_CLUSTERS: usize = 32;
pub const MOST_CLUSTERS: usize = 65_536;
/// Where the superblock lists bad erase blocks, in how many words, and the word that lists none.
pub const BAD_BLOCKS: usize = 0xD0;
pub const BAD_BLOCK_WORDS: usize = 32;
pub const NO_BLOCK: u32 = 0xFFFF_FFFF;
/// A card of so many clusters keeps its last allocatable ones back, from this table index up.
pub const TAIL_CLUSTERS: usize = 8192;
pub const TAIL: usize = 8000;
/// Table words in a cluster.
pub const WORDS: usize = 256;
/// The table word that ends a chain.
pub const END_MARK: u32 = 0xFFFF_FFFF;
/// Set in a table word that isn't free.
pub const USED: u32 = 0x8000_0000;

/// What a table word says.
#[derive(Clone, Copy, Debug, PartialEq, Eq)]
pub enum Link {
    Free,
    End,
    Next(usize),
}

/// The meaning of a table word.
pub fn link(word: u32) -> Link {
    match word {
        END_MARK => Link::End,
        word if word & USED == 0 => Link::Free,
        word => Link::Next((word & !USED) as usize),
    }
}

/// A card whose superblock and table have been judged.
#[derive(Clone, Debug)]
pub struct Card {
    pub format: Format,
    pub clusters: usize,
    pub alloc_offset: usize,
    pub alloc_end: usize,
    /// The erase blocks listed as bad; one may be there twice.
    pub bad_blocks: Vec<u64>,
    /// Card clusters of the table, in the order of their names.
    pub table_clusters: Vec<usize>,
    /// One word for each allocatable cluster.
    pub table: Vec<u32>,
    /// Corrected chunks in page 0 and in the pages of the indirect cluster and of the table.
    pub mended: usize,
}

/// Whether N is allowed: a multiple of 8 from 32 to 65,536.
pub fn is_allowed(clusters: usize) -> bool {
    clusters.is_multiple_of(8) && (LEAST_CLUSTERS..=MOST_CLUSTERS).contains(&clusters)
}

/// N by the image's length, where it is allowed.
pub fn clusters_of(format: Format, length: usize) -> Option<usize> {
    let bytes = format.cluster_bytes();
    let clusters = length / bytes;
    (length.is_multiple_of(bytes) && is_allowed(clusters)).then_some(clusters)
}

/// A page that is needed: where it is unreadable, 2.
pub fn needed(format: Format, image: &[u8], page: usize) -> Result<Data, Refusal> {
    page::read(format, image, page).ok_or(Refusal::unreadable(page))
}

/// The same, for each page once in a call: its corrected chunks are added to what the call reports.
pub fn counted(format: Format, image: &[u8], page: usize, mended: &mut usize) -> Result<Data, Refusal> {
    let (data, chunks) = page::read_mended(format, image, page).ok_or(Refusal::unreadable(page))?;
    *mended += chunks.into_iter().filter(|&chunk| chunk).count();
    Ok(data)
}

/// Both pages of a card cluster, the first one first.
fn counted_cluster(format: Format, image: &[u8], cluster: usize, mended: &mut usize) -> Result<Vec<u8>, Refusal> {
    let first = counted(format, image, 2 * cluster, mended)?;
    let second = counted(format, image, 2 * cluster + 1, mended)?;
    Ok([first, second].concat())
}

/// The erase block that a card cluster lies in.
fn block_of(cluster: usize) -> u64 {
    cluster as u64 / BLOCK
}

/// The listed bad blocks: all 32 words count, also behind one that lists none.
fn bad_blocks(block: &Data) -> Vec<u64> {
    let words = (0..BAD_BLOCK_WORDS).map(|place| word(block, BAD_BLOCKS + 4 * place));
    words.filter(|&word| word != NO_BLOCK).map(u64::from).collect()
}

/// The rules of number 4; sums are taken as whole numbers.
fn superblock_rules(block: &Data, clusters: usize) -> bool {
    let wide = |at| u64::from(word(block, at));
    let (offset, end) = (wide(0x34), wide(0x38));
    let (backup1, backup2) = (wide(0x40), wide(0x44));
    let backup_fits = |backup| backup < block_of(clusters) && backup * BLOCK >= offset + end;
    // The superblock's own block can't be listed, a backup block can.
    let may_be_bad = |bad: &u64| *bad != block_of(0) && *bad < block_of(clusters);
    VERSIONS.iter().any(|version| block[0x1C..0x28] == version[..])
        && (half(block, 0x28), half(block, 0x2A), half(block, 0x2C)) == (DATA as u16, 2, 16)
        && wide(0x30) == clusters as u64
        && end >= 1
        && wide(0x3C) == 0
        && offset + end <= clusters as u64
        && backup1 != backup2
        && backup_fits(backup1)
        && backup_fits(backup2)
        && bad_blocks(block).iter().all(may_be_bad)
}

impl Card {
    /// Refusals 1 to 5, and 2 for the pages of superblock, indirect cluster and table.
    pub fn open(format: Format, image: &[u8]) -> Result<Card, Refusal> {
        let clusters = clusters_of(format, image.len()).ok_or(Refusal::number(1))?;
        let mut mended = 0;
        let block = counted(format, image, 0, &mut mended)?;
        if block[..28] != FORMAT[..] {
            return Err(Refusal::number(3));
        }
        if !superblock_rules(&block, clusters) {
            return Err(Refusal::number(4));
        }
        let alloc_offset = word(&block, 0x34) as usize;
        let alloc_end = word(&block, 0x38) as usize;
        let bad_blocks = bad_blocks(&block);

        // The indirect cluster's name is judged before its pages, all names before the table; none may lie in a bad
        // block. Its 256 words are enough, since alloc_end is below N.
        let mut names: Vec<usize> = Vec::new();
        let judge = |names: &mut Vec<usize>, name: usize| {
            let is_bad = bad_blocks.contains(&block_of(name));
            if name < 1 || name >= alloc_offset || names.contains(&name) || is_bad {
                return Err(Refusal::number(5));
            }
            names.push(name);
            Ok(())
        };
        let indirect = word(&block, 0x50) as usize;
        judge(&mut names, indirect)?;
        let indirect_words = counted_cluster(format, image, indirect, &mut mended)?;
        for index in 0..alloc_end.div_ceil(WORDS) {
            judge(&mut names, word(&indirect_words, 4 * index) as usize)?;
        }

        let table_clusters = names.split_off(1);
        let mut table = Vec::with_capacity(table_clusters.len() * WORDS);
        for &cluster in &table_clusters {
            let words = counted_cluster(format, image, cluster, &mut mended)?;
            table.extend((0..WORDS).map(|index| word(&words, 4 * index)));
        }
        table.truncate(alloc_end);
        Ok(Card { format, clusters, alloc_offset, alloc_end, bad_blocks, table_clusters, table, mended })
    }

    /// The image's page index of the first or second page of an allocatable cluster.
    pub fn page(&self, cluster: usize, second: usize) -> usize {
        2 * (self.alloc_offset + cluster) + second
    }

    /// The image's page index of an entry, by its directory's chain.
    pub fn slot_page(&self, chain: &[usize], slot: usize) -> usize {
        self.page(chain[slot / 2], slot % 2)
    }

    pub fn link(&self, cluster: usize) -> Link {
        link(self.table[cluster])
    }

    /// No new cluster is taken from this table index up: 8,000 where N is 8,192 and alloc_end above 8,000, else
    /// alloc_end.
    pub fn limit(&self) -> usize {
        match self.clusters == TAIL_CLUSTERS && self.alloc_end > TAIL {
            true => TAIL,
            false => self.alloc_end,
        }
    }

    /// Whether an allocatable cluster lies in a bad block: blocks are counted in card clusters.
    pub fn is_bad(&self, cluster: usize) -> bool {
        self.bad_blocks.contains(&block_of(self.alloc_offset + cluster))
    }

    /// Whether a cluster may be taken once it is free: it lies below the limit and in no bad block.
    pub fn is_ours(&self, cluster: usize) -> bool {
        cluster < self.limit() && !self.is_bad(cluster)
    }

    /// The clusters whose table words are free, ascending, those that may be taken and the others alike.
    fn free_words(&self) -> impl Iterator<Item = usize> + '_ {
        (0..self.alloc_end).filter(|&cluster| self.link(cluster) == Link::Free)
    }

    /// The free clusters that may be taken, ascending.
    pub fn free(&self) -> impl Iterator<Item = usize> + '_ {
        self.free_words().filter(|&cluster| self.is_ours(cluster))
    }

    /// The free clusters that may not: those of the tail and of bad blocks, each once.
    pub fn held(&self) -> impl Iterator<Item = usize> + '_ {
        self.free_words().filter(|&cluster| !self.is_ours(cluster))
    }
}
