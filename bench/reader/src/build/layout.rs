//! Layouts of cards: where superblock, table, allocatable clusters and backup blocks lie.

use crate::tree::Counts;

/// Where the parts of a card lie.
#[derive(Clone, Debug)]
pub struct Layout {
    pub clusters: usize,
    pub alloc_offset: usize,
    pub alloc_end: usize,
    pub indirect: usize,
    pub table: Vec<usize>,
    pub backups: [u32; 2],
    pub version: &'static str,
}

impl Layout {
    /// The bench card of document 01.
    pub fn bench() -> Layout {
        Layout::fresh(56)
    }

    /// The standard 8 MB card of source 001.
    pub fn standard() -> Layout {
        Layout::fresh(8192)
    }

    /// A card of N clusters as those two are laid out: the indirect cluster is 8, the table begins at 9, the last two
    /// blocks are the backups, and everything between is allocatable.
    pub fn fresh(clusters: usize) -> Layout {
        Layout::behind(clusters, 8)
    }

    /// The card of N clusters with most of them allocatable: indirect cluster and table lie from 1 on.
    pub fn widest(clusters: usize) -> Layout {
        Layout::behind(clusters, 1)
    }

    /// The table right behind the indirect cluster, with room for a word of each cluster that follows; now and then the
    /// last cluster of that room isn't needed.
    fn behind(clusters: usize, indirect: usize) -> Layout {
        let blocks = clusters / 8;
        let table = indirect + 1;
        let left = clusters - 16 - table;
        let room = (1..).find(|room| (left - room).div_ceil(256) <= *room).expect("a table fits");
        let alloc_end = left - room;
        Layout {
            clusters,
            alloc_offset: table + room,
            alloc_end,
            indirect,
            table: (table..table + alloc_end.div_ceil(256)).collect(),
            backups: [blocks as u32 - 1, blocks as u32 - 2],
            version: "1.2.0.0",
        }
    }

    /// The same card with fewer allocatable clusters; nobody has those behind them.
    pub fn ending(mut self, alloc_end: usize) -> Layout {
        assert!((1..=self.alloc_end).contains(&alloc_end), "fewer clusters, at least 1");
        self.table.truncate(alloc_end.div_ceil(256));
        Layout { alloc_end, ..self }
    }

    /// The table index from which no new cluster is taken: only a card of 8,192 clusters has a tail.
    pub fn limit(&self) -> usize {
        if self.clusters == 8192 {
            self.alloc_end.min(8000)
        } else {
            self.alloc_end
        }
    }

    /// The counts where so many clusters are reached, all of them below the limit, none is orphaned, no block is listed
    /// as bad and nothing is mended.
    pub fn counts(&self, reached: usize) -> Counts {
        let limit = self.limit();
        let (free, held) = (limit - reached, self.alloc_end - limit);
        Counts { clusters: self.clusters, free, reached, orphaned: 0, held, mended: 0 }
    }
}
