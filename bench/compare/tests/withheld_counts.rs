//! What is counted on cards with a reserved tail or a bad block list, by library and reader.

mod common;

use common::{same, Tally};
use compare::listing;
use reader::build::{self, random};
use reader::tree::Checked;
use reader::{Counts, Format};

/// Every trap card: the counts that it was built for, which add up, and the listing's first lines.
#[test]
fn counted() {
    let cards = [build::tail::good, build::listed::good, build::listed::with_tail];
    for card in Format::BOTH.into_iter().flat_map(|format| cards.map(|good| good(format)).concat()) {
        assert_eq!(same(card.format, &card.image, card.name), Ok(card.counts), "{:?}, {}", card.format, card.name);
        let Counts { clusters, free, reached, orphaned, held, mended } = card.counts;
        let end = Checked::of(card.format, &card.image).expect("an accepted card").card.alloc_end;
        assert_eq!(free + reached + orphaned + held, end, "{}", card.name);
        let clusters = format!("card {clusters}\nfree {free}\nreached {reached}\norphaned {orphaned}\nheld {held}\n");
        let head = format!("{clusters}mended {mended}\n");
        let text = listing::whole(card.format, &card.image);
        assert!(text == reader::list(card.format, &card.image, 0) && text.starts_with(&head), "{}", card.name);
    }
}

/// The counts that random cards were built for, with orphans and free words of every kind. Each count adds up to so many
/// at least; how many clusters are allocatable on each is returned, the fewest first.
fn random_cards(
    name: &str,
    card: fn(Format, u64) -> random::RandomCard,
    format: Format,
    seeds: u64,
    least: usize,
) -> Vec<usize> {
    let (mut tally, mut sums, mut ends) = (Tally::default(), [0; 4], vec![]);
    for seed in 0..seeds {
        let card = card(format, seed);
        let answer = tally.same(format, &card.image, || format!("{name} {seed}"));
        assert_eq!(answer, Ok(card.counts), "{format:?}, {name} {seed}");
        let Counts { free, reached, orphaned, held, .. } = card.counts;
        assert_eq!(free + reached + orphaned + held, card.layout.alloc_end);
        sums.iter_mut().zip([free, reached, orphaned, held]).for_each(|(sum, count)| *sum += count);
        ends.push(card.layout.alloc_end);
    }
    println!("{format:?}, {name}: free, reached, orphaned, held: {sums:?}");
    assert!(sums.iter().all(|&sum| sum >= least), "{sums:?}");
    ends.sort();
    ends
}

#[test]
fn tight_cards() {
    for format in Format::BOTH {
        let ends = random_cards("tight card", random::tight, format, 30, 100);
        println!("tails of {} to {} clusters", ends[0] - 8000, ends[29] - 8000);
        assert!(ends[0] < 8020 && ends[29] > 8130, "{ends:?}");
    }
}

#[test]
fn listed_cards() {
    for format in Format::BOTH {
        random_cards("listed card", random::listed, format, 200, 500);
    }
}
