//! The library's check takes at most twice the ordinary checker's time on the full cards, both optimised.

use compare::cards::{counts_by_tree, full, full_great};
use compare::checks::{agreed, best, ratio, tries, LIMIT, SIDES};
use compare::table::spread;
use reader::build::Layout;
use reader::card::MOST_CLUSTERS;
use reader::Format::Raw;

/// Clusters that the full card of 64 MiB reaches.
const REACHED: usize = 36_352;

/// Medians of many short runs in turn; the best of up to three tries counts, so that a busy machine only makes the test
/// longer. All sides have to give the counts that are known beforehand: who does less work can't pass.
#[test]
#[cfg_attr(debug_assertions, ignore = "the checker has to be optimised too: cargo test --release")]
fn full_cards() {
    let cards = [
        ("8 MB, 2,000 files", full(Raw), counts_by_tree("full-small.tree", &Layout::standard()), 101),
        ("64 MiB, 16,000 files", full_great(Raw), Layout::fresh(MOST_CLUSTERS).counts(REACHED), 25),
    ];
    let mut above = vec![];
    for (name, image, counts, runs) in cards {
        assert_eq!(agreed(Raw, &image), counts, "{name}");
        let tries = tries(&image, runs);
        for sides in &tries {
            let times = SIDES.iter().zip(sides).map(|((side, _), times)| format!("{side} {} ms, ", spread(times)));
            println!("{name}: {}library/checker {:.2}", times.collect::<String>(), ratio(sides));
        }
        let ratio = ratio(best(&tries));
        if ratio > LIMIT {
            above.push(format!("{name}: {ratio:.2}"));
        }
    }
    assert!(above.is_empty(), "the library takes more than {LIMIT} times the checker's time: {}", above.join("; "));
}
