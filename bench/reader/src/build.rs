//! Builders of card images in either format, good and bad.
//!
//! They place every byte themselves and share only page writing with the reader.

pub mod bad;
pub mod bad_entries;
pub mod bad_lists;
pub mod deep;
pub mod draw;
pub mod good;
mod layout;
pub mod listed;
pub mod locks;
pub mod needed;
pub mod random;
pub mod requests;
pub mod samples;
pub mod scribble;
mod sketch;
pub mod stamped;
pub mod tail;
pub mod vandal;
mod wear;
pub mod withheld;

use crate::card::{BAD_BLOCKS, BAD_BLOCK_WORDS, END_MARK, FORMAT, USED};
use crate::entry::{name_field, Entry};
use crate::page::{self, put_half, put_word, Data, Format, CLUSTER_DATA, DATA};
use crate::time::{stamp, Time};

pub use layout::Layout;

/// The time on cards built here: 12:34:56 on 29 February 2000.
pub fn usual_time() -> Time {
    stamp(2000, 2, 29, 12, 34, 56)
}

/// A card under construction: its parts stay open until `finish` puts them into pages.
#[derive(Clone, Debug)]
pub struct Assembly {
    pub format: Format,
    pub layout: Layout,
    pub superblock: Data,
    /// The words of the indirect cluster.
    pub indirect: Vec<u32>,
    /// The words of all table clusters, those from alloc_end on too.
    pub table: Vec<u32>,
    pub image: Vec<u8>,
}

impl Assembly {
    /// An erased card with superblock and an all-free table; nothing allocated yet.
    pub fn new(format: Format, layout: Layout) -> Assembly {
        let mut indirect = vec![END_MARK; 256];
        for (place, &cluster) in layout.table.iter().enumerate() {
            indirect[place] = cluster as u32;
        }
        let mut table = vec![END_MARK; 256 * layout.table.len()];
        table[..layout.alloc_end].fill(!USED);
        Assembly {
            format,
            superblock: superblock(&layout),
            indirect,
            table,
            image: vec![0xFF; layout.clusters * format.cluster_bytes()],
            layout,
        }
    }

    /// An erased card with an empty root.
    pub fn with_root(format: Format, layout: Layout) -> Assembly {
        let mut card = Assembly::new(format, layout);
        card.directory(&[0], 2);
        card
    }

    /// Puts these words into the list of bad blocks, from its first one on.
    pub fn list(&mut self, words: &[u32]) {
        assert!(words.len() <= BAD_BLOCK_WORDS, "the list has 32 words");
        words
            .iter()
            .enumerate()
            .for_each(|(place, &word)| put_word(&mut self.superblock, BAD_BLOCKS + 4 * place, word));
    }

    /// Whether new clusters may lie here: below the limit and in no block of the list.
    pub fn is_open(&self, cluster: usize) -> bool {
        let block = (self.layout.alloc_offset + cluster) / 8;
        let list = &self.superblock[BAD_BLOCKS..BAD_BLOCKS + 4 * BAD_BLOCK_WORDS];
        cluster < self.layout.limit() && list.chunks(4).all(|word| word != (block as u32).to_le_bytes())
    }

    /// A directory's chain and its first two entries, the first with its length as the root's has it.
    pub fn directory(&mut self, chain: &[usize], length: u32) {
        self.chain(chain);
        self.put(chain[0], 0, &directory(b".", length, 0));
        self.put(chain[0], 1, &directory(b"..", 0, 0));
    }

    /// The image's page index of an allocatable cluster's first or second page.
    pub fn page(&self, cluster: usize, second: usize) -> usize {
        2 * (self.layout.alloc_offset + cluster) + second
    }

    /// Links allocatable clusters in order and ends the chain.
    pub fn chain(&mut self, clusters: &[usize]) {
        for (place, &cluster) in clusters.iter().enumerate() {
            self.table[cluster] = clusters.get(place + 1).map_or(END_MARK, |&next| USED | next as u32);
        }
    }

    /// Puts an entry into an allocatable cluster's first or second page.
    pub fn put(&mut self, cluster: usize, second: usize, entry: &Entry) {
        self.write(self.page(cluster, second), &entry.page());
    }

    /// Writes a page of the image.
    pub fn write(&mut self, page: usize, data: &Data) {
        page::write(self.format, &mut self.image, page, data);
    }

    /// The image, with superblock, indirect cluster and table in their pages.
    pub fn finish(mut self) -> Vec<u8> {
        let superblock = self.superblock;
        self.write(0, &superblock);
        let indirect = std::mem::take(&mut self.indirect);
        self.put_words(self.layout.indirect, &indirect);
        let (clusters, table) = (self.layout.table.clone(), std::mem::take(&mut self.table));
        for (&cluster, words) in clusters.iter().zip(table.chunks(256)) {
            self.put_words(cluster, words);
        }
        self.image
    }

    /// Puts 256 words into the two pages of a card cluster.
    fn put_words(&mut self, cluster: usize, words: &[u32]) {
        for (second, words) in words.chunks(DATA / 4).enumerate() {
            let mut data = [0; DATA];
            words.iter().enumerate().for_each(|(place, &word)| put_word(&mut data, 4 * place, word));
            self.write(2 * cluster + second, &data);
        }
    }
}

/// The superblock of a layout, with no bad block listed.
pub fn superblock(layout: &Layout) -> Data {
    let mut data = [0; DATA];
    data[..28].copy_from_slice(FORMAT);
    data[0x1C..][..layout.version.len()].copy_from_slice(layout.version.as_bytes());
    put_half(&mut data, 0x28, DATA as u16);
    put_half(&mut data, 0x2A, 2);
    put_half(&mut data, 0x2C, 16);
    put_half(&mut data, 0x2E, 0xFF00);
    put_word(&mut data, 0x30, layout.clusters as u32);
    put_word(&mut data, 0x34, layout.alloc_offset as u32);
    put_word(&mut data, 0x38, layout.alloc_end as u32);
    put_word(&mut data, 0x40, layout.backups[0]);
    put_word(&mut data, 0x44, layout.backups[1]);
    put_word(&mut data, 0x50, layout.indirect as u32);
    data[0xD0..0x150].fill(0xFF);
    data[0x150..0x152].copy_from_slice(&[2, 0x52]);
    data
}

/// A file's entry as builders use it.
pub fn file(name: &[u8], length: u32, first_cluster: u32) -> Entry {
    Entry {
        mode: 0x8417,
        length,
        created: usual_time(),
        first_cluster,
        dir_entry: 0,
        modified: usual_time(),
        attribute: 0,
        name_field: name_field(name),
    }
}

/// A directory's entry as builders use it.
pub fn directory(name: &[u8], length: u32, first_cluster: u32) -> Entry {
    Entry { mode: 0x8427, ..file(name, length, first_cluster) }
}

/// The fresh bench card.
pub fn bench(format: Format) -> Vec<u8> {
    Assembly::with_root(format, Layout::bench()).finish()
}

/// A fresh standard 8,192-cluster card.
pub fn standard(format: Format) -> Vec<u8> {
    fresh(format, 8192)
}

/// A fresh card of N clusters.
pub fn fresh(format: Format, clusters: usize) -> Vec<u8> {
    Assembly::with_root(format, Layout::fresh(clusters)).finish()
}

/// A standard card with 40 directories of 50 small files each.
pub fn crowded(format: Format) -> Vec<u8> {
    crowded_like(format, Layout::standard(), 40, 50)
}

/// A card with some directories in its root, each with as many small files, 1 to 2,500 bytes long.
pub fn crowded_like(format: Format, layout: Layout, directories: usize, files: usize) -> Vec<u8> {
    let mut card = Assembly::new(format, layout);
    let mut next = 0;
    let mut take = |count: usize| -> Vec<usize> {
        next += count;
        (next - count..next).collect()
    };
    let root = take((2 + directories).div_ceil(2));
    card.directory(&root, 2 + directories as u32);
    for number in 0..directories {
        let length = 2 + files;
        let chain = take(length.div_ceil(2));
        let name = format!("SAVE{number:02}");
        card.put(root[1 + number / 2], number % 2, &directory(name.as_bytes(), length as u32, chain[0] as u32));
        card.directory(&chain, length as u32);
        for file_number in 0..files {
            let bytes = 1 + (number * 977 + file_number * 211) % 2500;
            let name = format!("file{file_number:02}");
            let data = take(bytes.div_ceil(CLUSTER_DATA));
            card.put(chain[1 + file_number / 2], file_number % 2, &file(name.as_bytes(), bytes as u32, data[0] as u32));
            card.chain(&data);
            for index in 0..2 * data.len() {
                let page = card.page(data[index / 2], index % 2);
                card.write(page, &[(bytes + page) as u8; DATA]);
            }
        }
    }
    card.finish()
}
