//! A fresh formatted card, laid out as source document 001 describes the standard one.

use crate::{allowed_clusters, Card, Format, Refusal, Stamp};

const DATA: usize = 512;
const CHUNK: usize = 128;

/// The indirect cluster: the first after the superblock's erase block. The table follows it.
const INDIRECT: usize = 8;
/// Words in a cluster.
const WORDS: usize = 256;
/// Clusters of the two backup blocks, the card's last ones.
const BACKUPS: usize = 16;

const END: u32 = 0xFFFF_FFFF;
const FREE: u32 = 0x7FFF_FFFF;
const DIRECTORY_MODE: u16 = 0x8427;

impl Card {
    /// A card with nothing but an empty root, its entries with this time; 14 where the time is invalid, 1 where no card
    /// has so many clusters. Every page that nothing stands in is erased, both backup blocks too. No block is listed as
    /// bad.
    pub fn fresh(format: Format, clusters: usize, time: &Stamp) -> Result<Card, Refusal> {
        if !allowed_clusters(clusters) {
            return Err(Refusal::BadLength);
        }
        if !time.is_valid() {
            return Err(Refusal::BadTime);
        }
        let layout = Layout::of(clusters);
        let mut card = Card::new(format, vec![0xFF; clusters * format.cluster_bytes()]);
        write_page(&mut card, 0, &superblock(&layout));
        let mut names = [END; WORDS];
        names.iter_mut().zip(layout.table_clusters()).for_each(|(name, cluster)| *name = cluster as u32);
        write_words(&mut card, INDIRECT, &names);
        let mut table = vec![END; WORDS * layout.table];
        table[1..layout.alloc_end].fill(FREE);
        for (cluster, words) in layout.table_clusters().zip(table.chunks(WORDS)) {
            write_words(&mut card, cluster, words);
        }
        let root = 2 * layout.alloc_offset();
        write_page(&mut card, root, &directory_entry(b".", 2, time));
        write_page(&mut card, root + 1, &directory_entry(b"..", 0, time));
        Ok(card)
    }
}

/// Where the parts lie: superblock, indirect cluster, table, allocatable clusters, backup blocks.
struct Layout {
    clusters: usize,
    /// How many table clusters: at most 255, one less than the indirect cluster has words.
    table: usize,
    alloc_end: usize,
}

impl Layout {
    /// All clusters between the table and the backup blocks are allocatable, with the smallest table that has a word
    /// for each. The standard card's reserved tail is among them: it is in the table, and held back.
    fn of(clusters: usize) -> Layout {
        let rest = clusters - BACKUPS - INDIRECT - 1;
        let table = rest.div_ceil(WORDS + 1);
        Layout { clusters, table, alloc_end: rest - table }
    }

    fn alloc_offset(&self) -> usize {
        INDIRECT + 1 + self.table
    }

    fn table_clusters(&self) -> std::ops::Range<usize> {
        INDIRECT + 1..self.alloc_offset()
    }
}

fn superblock(layout: &Layout) -> [u8; DATA] {
    let mut data = [0; DATA];
    let last_block = layout.clusters / 8 - 1;
    put(&mut data, 0x00, b"Sony PS2 Memory Card Format 1.2.0.0");
    put(&mut data, 0x28, &512u16.to_le_bytes());
    put(&mut data, 0x2A, &2u16.to_le_bytes());
    put(&mut data, 0x2C, &16u16.to_le_bytes());
    put(&mut data, 0x2E, &0xFF00u16.to_le_bytes());
    put(&mut data, 0x30, &word(layout.clusters));
    put(&mut data, 0x34, &word(layout.alloc_offset()));
    put(&mut data, 0x38, &word(layout.alloc_end));
    put(&mut data, 0x40, &word(last_block));
    put(&mut data, 0x44, &word(last_block - 1));
    put(&mut data, 0x50, &word(INDIRECT));
    // The list of bad blocks: 32 times none. Zeros would list block 0, which is refused.
    data[0xD0..0x150].fill(0xFF);
    // Type: PlayStation 2; flags as 001 gives them.
    put(&mut data, 0x150, &[2, 0x52]);
    data
}

fn directory_entry(name: &[u8], length: u32, time: &Stamp) -> [u8; DATA] {
    let mut data = [0; DATA];
    put(&mut data, 0x00, &DIRECTORY_MODE.to_le_bytes());
    put(&mut data, 0x04, &length.to_le_bytes());
    put(&mut data, 0x08, &time.0);
    put(&mut data, 0x18, &time.0);
    put(&mut data, 0x40, name);
    data
}

fn word(value: usize) -> [u8; 4] {
    (value as u32).to_le_bytes()
}

fn put(data: &mut [u8], at: usize, bytes: &[u8]) {
    data[at..at + bytes.len()].copy_from_slice(bytes);
}

/// Writes up to 256 words into the two pages of a card cluster.
fn write_words(card: &mut Card, cluster: usize, words: &[u32]) {
    for (second, half) in words.chunks(DATA / 4).enumerate() {
        let mut data = [0; DATA];
        half.iter().enumerate().for_each(|(place, word)| put(&mut data, 4 * place, &word.to_le_bytes()));
        write_page(card, 2 * cluster + second, &data);
    }
}

/// Writes a page, a raw one with the codes of its four chunks; the last four spare bytes stay.
fn write_page(card: &mut Card, page: usize, data: &[u8; DATA]) {
    let size = card.format.page_bytes();
    let (stored, spare) = card.image[page * size..][..size].split_at_mut(DATA);
    stored.copy_from_slice(data);
    // A plain page has no room for a code.
    for (chunk, code) in data.chunks(CHUNK).zip(spare.chunks_mut(3)) {
        code.copy_from_slice(&code_of(chunk));
    }
}

/// The code of a chunk: column parities in the first byte, the places of odd bytes in the other two.
fn code_of(chunk: &[u8]) -> [u8; 3] {
    let mut code = [0x77, 0x7F, 0x7F];
    for (place, &byte) in chunk.iter().enumerate() {
        for (mask, bit) in [(0x55, 0x01), (0x33, 0x02), (0x0F, 0x04), (0xAA, 0x10), (0xCC, 0x20), (0xF0, 0x40)] {
            if (byte & mask).count_ones() % 2 == 1 {
                code[0] ^= bit;
            }
        }
        if byte.count_ones() % 2 == 1 {
            code[1] ^= (CHUNK - 1 - place) as u8;
            code[2] ^= place as u8;
        }
    }
    code
}
