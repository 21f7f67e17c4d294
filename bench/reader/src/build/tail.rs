//! Cards with a reserved tail, from table index 8,000 up, and cards of other sizes, which have none.

use super::good::GoodCard;
use super::withheld::TAIL;
use super::{file, Assembly, Layout};
use crate::card::{END_MARK, USED};
use crate::page::{Format, CLUSTER_DATA};

/// An empty root; of the clusters below `border` so many last ones are free and all others orphaned, from it up all are
/// free.
pub fn crammed(format: Format, layout: Layout, border: usize, free: usize) -> Assembly {
    let mut card = Assembly::with_root(format, layout);
    card.table[1..border - free].fill(END_MARK);
    card
}

/// One file over these clusters of the standard card, the root's entry for it in cluster 1.
fn one_file(format: Format, chain: &[usize]) -> Assembly {
    let mut card = Assembly::new(format, Layout::standard());
    card.directory(&[0, 1], 3);
    card.put(1, 0, &file(b"ALL", (CLUSTER_DATA * chain.len()) as u32, chain[0] as u32));
    card.chain(chain);
    card
}

/// Accepted cards with a tail, or nearly with one, and their counts.
pub fn good(format: Format) -> Vec<GoodCard> {
    let card = GoodCard::new;
    let fresh = |layout| Assembly::with_root(format, layout);
    let ending = |end| fresh(Layout::standard().ending(end));
    let mut beyond = ending(8001);
    beyond.table[8001..].fill(0);
    let mut orphans = fresh(Layout::standard());
    orphans.table[8000..8135].fill(USED | 8000);
    let descending: Vec<usize> = (2..8135).rev().collect();
    let odd: Vec<usize> = (8001..8135).step_by(2).collect();
    vec![
        card("alloc_end 8,142, the most there is", [8192, 7999, 1, 0, 142], fresh(Layout::widest(8192))),
        card("alloc_end 8,002", [8192, 7999, 1, 0, 2], ending(8002)),
        card("alloc_end 8,001", [8192, 7999, 1, 0, 1], ending(8001)),
        card("alloc_end 8,001, free words after it", [8192, 7999, 1, 0, 1], beyond),
        card("alloc_end 8,000", [8192, 7999, 1, 0, 0], ending(8000)),
        card("alloc_end 7,999", [8192, 7998, 1, 0, 0], ending(7999)),
        card("N 8,184, alloc_end 8,134", [8184, 8133, 1, 0, 0], fresh(Layout::widest(8184))),
        card("N 8,200, alloc_end 8,143", [8200, 8142, 1, 0, 0], fresh(Layout::fresh(8200))),
        card("every cluster of the tail orphaned", [8192, 7999, 1, 135, 0], orphans),
        card("every cluster reached, the tail first", [8192, 0, 8135, 0, 0], one_file(format, &descending)),
        card("every other cluster of the tail reached", [8192, 7998, 69, 0, 68], one_file(format, &odd)),
        TAIL.good(format, "the sample", 0),
        TAIL.good(format, "the sample, 3 free", 3),
    ]
}
