//! The superblock with its list of bad blocks, and the table of allocatable clusters.

use crate::pages::{half, word, Data, Pages};
use crate::Refusal;

const FORMAT_TEXT: &[u8; 28] = b"Sony PS2 Memory Card Format ";
const VERSIONS: [&[u8; 12]; 2] = [b"1.1.0.0\0\0\0\0\0", b"1.2.0.0\0\0\0\0\0"];
/// Clusters of an erase block.
const BLOCK: usize = 8;
/// A word of the list of bad blocks that names none.
const NO_BLOCK: u32 = 0xFFFF_FFFF;
/// Words of a cluster.
const WORDS: usize = 256;
/// On a card of this many clusters, allocatable ones from the limit on are reserved.
const TAILED: usize = 8192;
const LIMIT: usize = 8000;

/// What the check needs of the superblock.
pub struct Superblock {
    pub alloc_offset: usize,
    pub alloc_end: usize,
    clusters: usize,
    indirect: u32,
    /// For each erase block of the card, whether it is listed as bad.
    bad_blocks: Vec<bool>,
}

impl Superblock {
    /// Reads page 0 and judges it: format text first, then all other rules.
    pub fn read(pages: &mut Pages, clusters: usize) -> Result<Superblock, Refusal> {
        let data = pages.read(0)?;
        if !data.starts_with(FORMAT_TEXT) {
            return Err(Refusal::number(3));
        }
        Superblock::judged(&data, clusters).ok_or(Refusal::number(4))
    }

    /// All rules but the text's; nothing where one is broken.
    fn judged(data: &Data, clusters: usize) -> Option<Superblock> {
        let number = |place| word(data, place) as usize;
        let blocks = clusters / BLOCK;
        let (alloc_offset, alloc_end) = (number(0x34), number(0x38));
        let allocated = alloc_offset.checked_add(alloc_end)?;
        let backups = [number(0x40), number(0x44)];
        let is_sound = VERSIONS.iter().any(|version| data[0x1C..0x28] == version[..])
            && half(data, 0x28) == 512
            && half(data, 0x2A) == 2
            && half(data, 0x2C) == 16
            && number(0x30) == clusters
            && alloc_end >= 1
            && number(0x3C) == 0
            && allocated <= clusters
            && backups[0] != backups[1]
            && backups.iter().all(|&block| block < blocks && block * BLOCK >= allocated);
        let bad_blocks = bad_blocks(data, blocks)?;
        is_sound.then(|| Superblock { alloc_offset, alloc_end, clusters, indirect: word(data, 0x50), bad_blocks })
    }

    /// The table's words, one for each allocatable cluster; all names are judged before a table page is read.
    pub fn table(&self, pages: &mut Pages) -> Result<Vec<u32>, Refusal> {
        let mut named = vec![false; self.alloc_offset];
        let indirect = self.named(self.indirect, &mut named)?;
        let mut names = Vec::with_capacity(WORDS);
        read_words(pages, indirect, &mut names)?;
        names.truncate(self.alloc_end.div_ceil(WORDS));
        for &name in &names {
            self.named(name, &mut named)?;
        }
        let mut table = Vec::with_capacity(names.len() * WORDS);
        for name in names {
            read_words(pages, name as usize, &mut table)?;
        }
        table.truncate(self.alloc_end);
        Ok(table)
    }

    /// A name of the indirect or a table cluster: below the allocatable ones, not 0, not in a bad block, not given yet.
    fn named(&self, name: u32, named: &mut [bool]) -> Result<usize, Refusal> {
        let cluster = name as usize;
        match named.get_mut(cluster) {
            Some(is_named) if cluster != 0 && !*is_named && !self.bad_blocks[cluster / BLOCK] => *is_named = true,
            _ => return Err(Refusal::number(5)),
        }
        Ok(cluster)
    }

    /// For each allocatable cluster, whether new data is kept from it: it is in the reserved tail or in a bad block.
    pub fn withheld(&self) -> Vec<bool> {
        let mut withheld = vec![false; self.alloc_end];
        if self.clusters == TAILED && self.alloc_end > LIMIT {
            withheld[LIMIT..].fill(true);
        }
        for (block, _) in self.bad_blocks.iter().enumerate().filter(|(_, is_bad)| **is_bad) {
            let first = (block * BLOCK).saturating_sub(self.alloc_offset).min(self.alloc_end);
            let end = ((block + 1) * BLOCK).saturating_sub(self.alloc_offset).min(self.alloc_end);
            withheld[first..end].fill(true);
        }
        withheld
    }
}

/// The listed blocks as marks, or nothing where one is outside the card or holds the superblock.
fn bad_blocks(data: &Data, blocks: usize) -> Option<Vec<bool>> {
    let mut marks = vec![false; blocks];
    for place in (0xD0..0x150).step_by(4) {
        match word(data, place) {
            NO_BLOCK => (),
            0 => return None,
            block => *marks.get_mut(block as usize)? = true,
        }
    }
    Some(marks)
}

/// Adds the words of a card cluster's two pages.
fn read_words(pages: &mut Pages, cluster: usize, words: &mut Vec<u32>) -> Result<(), Refusal> {
    for page in [2 * cluster, 2 * cluster + 1] {
        let data = pages.read(page)?;
        let (bytes, _) = data.as_chunks::<4>();
        words.extend(bytes.iter().map(|bytes| u32::from_le_bytes(*bytes)));
    }
    Ok(())
}
