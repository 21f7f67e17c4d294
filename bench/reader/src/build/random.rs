//! Seeded random cards of either format, each with the tree and counts it was built to have.

use std::collections::HashMap;

use super::draw::{random_layout, random_list};
use super::sketch::Sketch;
use super::Layout;
use crate::card::NO_BLOCK;
use crate::content::Tree;
use crate::page::Format;
use crate::rng::Rng;
use crate::tree::Counts;

/// A random card and what the check and the tree must say of it.
#[derive(Clone, Debug)]
pub struct RandomCard {
    pub format: Format,
    pub image: Vec<u8>,
    pub layout: Layout,
    pub counts: Counts,
    pub tree: Tree,
    /// How many chunks of a page were flipped in one bit each, for pages without other damage. On the pages of entries,
    /// files, superblock and table these are the corrected ones; other pages may be junk.
    pub flips: HashMap<usize, usize>,
}

/// A random card of a random size, mostly small; now and then it is of the one size that has a tail.
pub fn random(format: Format, seed: u64) -> RandomCard {
    let mut rng = Rng::new(seed);
    let blocks = match rng.below(20) {
        0..=9 => rng.between(4, 8),
        10..=16 => rng.between(8, 40),
        17..=18 => rng.between(40, 200),
        _ if rng.chance(1, 3) => 1024,
        _ => rng.between(200, 1024),
    };
    sized(format, seed, 8 * blocks)
}

/// A random card of N clusters; every third one lists bad blocks.
pub fn sized(format: Format, seed: u64, clusters: usize) -> RandomCard {
    let mut rng = Rng::new(seed ^ 0x5EED_CA4D);
    let layout = random_layout(&mut rng, clusters);
    let list = if rng.chance(1, 3) { random_list(&mut rng, &layout) } else { [NO_BLOCK; 32] };
    let pool = (1..layout.alloc_end).rev().collect();
    drawn(format, layout, list, pool, &mut rng)
}

/// A small random tree on a card that lists bad blocks, one time in ten with a tail. Beside them few clusters are left
/// to it and to be free, all others are orphaned: the list decides.
pub fn listed(format: Format, seed: u64) -> RandomCard {
    let mut rng = Rng::new(seed ^ 0xBAD_B10C);
    let clusters = if rng.chance(1, 10) { 8192 } else { 8 * rng.between(6, 60) };
    let layout = random_layout(&mut rng, clusters);
    let list = random_list(&mut rng, &layout);
    let is_listed = |cluster: &usize| list.contains(&((layout.alloc_offset + cluster) as u32 / 8));
    let (bad, mut pool): (Vec<usize>, Vec<usize>) = (1..layout.alloc_end).partition(is_listed);
    rng.shuffle(&mut pool);
    pool.truncate(if rng.chance(1, 2) { rng.between(1, 12) } else { rng.between(12, 60) });
    pool.extend(bad);
    drawn(format, layout, list, pool, &mut rng)
}

/// A small random tree on a card with a tail of any length. Below the limit few clusters are left to it and to be free,
/// all others there are orphaned: the limit decides.
pub fn tight(format: Format, seed: u64) -> RandomCard {
    let mut rng = Rng::new(seed ^ 0x7A11_CA4D);
    let mut layouts = std::iter::repeat_with(|| random_layout(&mut rng, 8192));
    let mut layout = layouts.find(|layout| layout.alloc_end > 8000).expect("half of them reach that far");
    if rng.chance(1, 2) {
        let end = rng.between(8001, layout.alloc_end);
        layout = layout.ending(end);
    }
    let mut pool: Vec<usize> = (1..8000).collect();
    rng.shuffle(&mut pool);
    pool.truncate(if rng.chance(1, 2) { rng.between(1, 12) } else { rng.between(12, 60) });
    pool.extend((8000..layout.alloc_end).rev());
    drawn(format, layout, [NO_BLOCK; 32], pool, &mut rng)
}

/// A tree drawn from the pool's clusters; no cluster beside it is free.
fn drawn(format: Format, layout: Layout, list: [u32; 32], pool: Vec<usize>, rng: &mut Rng) -> RandomCard {
    let mut sketch = Sketch::new(format, layout, pool, rng);
    sketch.list(&list);
    sketch.grow(rng);
    sketch.finish(rng)
}
