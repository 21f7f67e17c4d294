//! Demand 3 by library and reader: two changes, neither path a beginning of the other, in both orders on copies of
//! one card.

mod common;

use common::orders::{furnish, Run};
use reader::build::random::random;
use reader::rng::Rng;
use reader::Format;

/// Pairs of random changes on random cards.
fn random_cards(format: Format, seeds: std::ops::Range<u64>) {
    let mut run = Run::new(format);
    for seed in seeds {
        let mut image = random(format, seed).image;
        let mut rng = Rng::new(seed ^ 0x0D0_0D3);
        furnish(format, &mut image, &mut rng, seed % 2 == 0);
        let pairs = if image.len() > 400_000 { 4 } else { 30 };
        run.random_pairs(&image, pairs, &mut rng, || format!("random card {seed}"));
    }
    run.met(20);
}

#[test]
fn raw_pairs_first_half() {
    random_cards(Format::Raw, 0..240);
}

#[test]
fn raw_pairs_second_half() {
    random_cards(Format::Raw, 7_000_000..7_000_240);
}

#[test]
fn plain_pairs() {
    random_cards(Format::Plain, 0..240);
}
