//! Random bad block lists by library and reader: which are refused, and what is counted.

mod common;

use common::Tally;
use reader::build::draw::{random_layout, random_list};
use reader::build::listed::fresh_with;
use reader::rng::Rng;
use reader::{Counts, Format, Refusal};

/// Fresh cards of random layouts with a random list and now and then a word that breaks it, against the rule itself.
#[test]
fn random_lists() {
    for format in Format::BOTH {
        let mut tally = Tally::default();
        for seed in 0..1500 {
            let mut rng = Rng::new(seed ^ 0x11_57ED);
            let blocks = rng.between(4, 40);
            let layout = random_layout(&mut rng, 8 * blocks);
            let mut list = random_list(&mut rng, &layout);
            if rng.chance(1, 2) {
                let name = *rng.pick(&layout.table);
                let words = [0, 1, 1, blocks, blocks - 1, layout.indirect / 8, name / 8, name / 8, 0xFFFF_FFFE];
                list[rng.below(32)] = *rng.pick(&words) as u32;
            }
            let listed = |cluster: usize| list.contains(&(cluster as u32 / 8));
            let named = layout.table.iter().chain([&layout.indirect]).any(|&name| listed(name));
            let is_wrong = list.iter().any(|&word| word == 0 || word != u32::MAX && word >= blocks as u32);
            let end = layout.alloc_end;
            let held = (1..end).filter(|cluster| listed(layout.alloc_offset + cluster)).count();
            let free = end - 1 - held;
            let expected = match (is_wrong, named) {
                (true, _) => Err(Refusal::number(4)),
                (_, true) => Err(Refusal::number(5)),
                _ => Ok(Counts { clusters: 8 * blocks, free, reached: 1, orphaned: 0, held, mended: 0 }),
            };
            let image = fresh_with(format, layout, &list).finish();
            let answer = tally.same(format, &image, || format!("random list {seed}"));
            assert_eq!(answer, expected, "{format:?}, random list {seed}");
        }
        tally.met([0, 4, 5], 80);
    }
}
