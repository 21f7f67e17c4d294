//! Table and pages as a change will leave them; nothing is written before the whole change is accepted.

use crate::card::{Card, END_MARK, USED, WORDS};
use crate::page::{self, put_word, Data, DATA};
use crate::Refusal;

/// Table and pages as a change will leave them.
pub(crate) struct Edit {
    pub card: Card,
    table: Vec<u32>,
    pages: Vec<(usize, Data)>,
}

impl Edit {
    pub fn new(card: Card) -> Edit {
        Edit { table: card.table.clone(), card, pages: Vec::new() }
    }

    /// The lowest free clusters that may be taken, ascending: directory growth first, then the new chain; too few is
    /// 12.
    pub fn take(&self, own: usize, growth: usize) -> Result<(Vec<usize>, Vec<usize>), Refusal> {
        let mut free: Vec<usize> = self.card.free().take(own.saturating_add(growth)).collect();
        if free.len() < own.saturating_add(growth) {
            return Err(Refusal::number(12));
        }
        let chain = free.split_off(growth);
        Ok((free, chain))
    }

    /// Links the clusters in order and ends the chain at the last.
    pub fn link(&mut self, chain: &[usize]) {
        for (place, &cluster) in chain.iter().enumerate() {
            self.table[cluster] = chain.get(place + 1).map_or(END_MARK, |&next| USED + next as u32);
        }
    }

    /// Clears the top bit of each table word in the chain.
    pub fn release(&mut self, chain: &[usize]) {
        for &cluster in chain {
            self.table[cluster] &= !USED;
        }
    }

    /// A page that is written without being read.
    pub fn write(&mut self, page: usize, data: Data) {
        self.pages.push((page, data));
    }

    /// All pages of newly taken clusters: a file's bytes, zero after its end.
    pub fn fill(&mut self, chain: &[usize], data: &[u8]) {
        for index in 0..2 * chain.len() {
            let mut page = [0; DATA];
            let rest = data.get(index * DATA..).unwrap_or(&[]);
            let count = rest.len().min(DATA);
            page[..count].copy_from_slice(&rest[..count]);
            self.write(self.card.slot_page(chain, index), page);
        }
    }

    /// A page that is written only where its data, as read, changes.
    pub fn alter(&mut self, image: &[u8], page: usize, change: impl FnOnce(&mut Data)) {
        let before = page::read(self.card.format, image, page).expect("the check has read this page");
        let mut after = before;
        change(&mut after);
        if after != before {
            self.write(page, after);
        }
    }

    /// Writes the table's changed pages and all others.
    pub fn commit(mut self, image: &mut [u8]) {
        for index in 0..2 * self.card.table_clusters.len() {
            let words = self.table.iter().skip(index * WORDS / 2).take(WORDS / 2).copied().collect::<Vec<u32>>();
            self.alter(image, 2 * self.card.table_clusters[index / 2] + index % 2, |page| {
                words.iter().enumerate().for_each(|(place, &word)| put_word(page, 4 * place, word));
            });
        }
        for (page, data) in &self.pages {
            page::write(self.card.format, image, *page, data);
        }
    }
}
