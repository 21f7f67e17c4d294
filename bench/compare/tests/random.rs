//! The library's check equals the reader's on seeded random cards, sound, worn and vandalised.

mod common;

use common::{flip_each_chunk, many_flips, mend, with_mended, with_page, Tally};
use reader::build::random::{random, sized};
use reader::build::vandal::vandalised;
use reader::build::{needed, scribble};
use reader::card::MOST_CLUSTERS;
use reader::rng::Rng;
use reader::{Format, Refusal};

/// Each raw card by itself, with mended flips, with a needed page ruined, and with many flips.
fn raw_cards(seeds: std::ops::Range<u64>) -> Tally {
    let format = Format::Raw;
    let mut tally = Tally::default();
    for seed in seeds {
        let card = random(format, seed);
        let what = |about: &str| format!("random card {seed}, {about}");
        assert_eq!(tally.same(format, &card.image, || what("itself")), Ok(card.counts), "{}", what("itself"));

        let mut rng = Rng::new(seed ^ 0xF11B5);
        let needed = needed::by_check(format, &card.image);
        let mut image = card.image;
        for _ in 0..rng.between(1, 20) {
            flip_each_chunk(&mut image, *rng.pick(&needed), &mut rng);
        }
        let counts = with_mended(format, &image, card.counts);
        assert_eq!(tally.same(format, &image, || what("flipped")), Ok(counts), "{}", what("flipped"));

        let page = *rng.pick(&needed);
        let chunk = rng.below(4);
        let ruin = |image: &mut [u8]| {
            mend(image, page);
            scribble::ruin(format, image, page, chunk, &mut rng);
        };
        let answer = with_page(format, &mut image, page, ruin, |image| tally.same(format, image, || what("ruined")));
        assert_eq!(answer, Err(Refusal::unreadable(page)), "{}", what("ruined"));
        flips(format, &mut image, &needed, &mut rng, &mut tally, what);
    }
    tally
}

/// Each plain card by itself, with junk where the check doesn't look, and with many flips, all of them data.
fn plain_cards(seeds: std::ops::Range<u64>) -> Tally {
    let format = Format::Plain;
    let mut tally = Tally::default();
    for seed in seeds {
        let card = random(format, seed);
        let what = |about: &str| format!("random card {seed}, {about}");
        assert_eq!(tally.same(format, &card.image, || what("itself")), Ok(card.counts), "{}", what("itself"));

        let mut rng = Rng::new(seed ^ 0xF11B6);
        let needed = needed::by_check(format, &card.image);
        let mut image = card.image;
        for _ in 0..rng.between(1, 20) {
            let page = rng.below(image.len() / format.page_bytes());
            if !needed.contains(&page) {
                rng.fill(&mut image[format.place(page)]);
            }
        }
        assert_eq!(tally.same(format, &image, || what("junk")), Ok(card.counts), "{}", what("junk"));
        flips(format, &mut image, &needed, &mut rng, &mut tally, what);
    }
    tally
}

/// Many flips in needed pages, one page at a time; it is put back.
fn flips(
    format: Format,
    image: &mut [u8],
    needed: &[usize],
    rng: &mut Rng,
    tally: &mut Tally,
    what: impl Fn(&str) -> String,
) {
    for round in 0..3 {
        let page = *rng.pick(needed);
        let change = |image: &mut [u8]| many_flips(format, image, page, rng);
        let about = || what(&format!("many flips, round {round}, page {page}"));
        with_page(format, image, page, change, |image| tally.same(format, image, about)).ok();
    }
}

#[test]
fn raw_cards_first_half() {
    let tally = raw_cards(0..1600);
    tally.met([0, 2], 1600);
    // Many flips pass for one now and then, so that an entry or a table word reads wrong.
    tally.met([4, 6, 7], 3);
}

#[test]
fn raw_cards_second_half() {
    let tally = raw_cards(1_000_000..1_001_600);
    tally.met([0, 2], 1600);
    tally.met([4, 6, 7], 3);
}

#[test]
fn random_plain_cards() {
    let tally = plain_cards(3_000_000..3_001_600);
    tally.met([0], 1600);
    tally.met([4, 6, 7], 10);
    assert_eq!(tally.seen[2], 0);
}

/// Faults of every kind, one to three on a card, and then flips on top, which a raw card sees through.
#[test]
fn vandalised_raw_cards() {
    let format = Format::Raw;
    let mut tally = Tally::default();
    for seed in 0..4000 {
        let mut image = vandalised(format, seed);
        let answer = tally.same(format, &image, || format!("vandalised card {seed}"));
        if answer != Err(Refusal::number(1)) {
            let mut rng = Rng::new(seed ^ 0x7A9DA1);
            let pages = image.len() / format.page_bytes();
            for _ in 0..rng.between(1, 8) {
                flip_each_chunk(&mut image, rng.below(pages), &mut rng);
            }
            let answer = answer.map(|counts| with_mended(format, &image, counts));
            assert_eq!(tally.same(format, &image, || format!("vandalised card {seed}, flipped")), answer);
        }
    }
    tally.met(0..=7, 25);
}

#[test]
fn vandalised_plain_cards() {
    let format = Format::Plain;
    let mut tally = Tally::default();
    for seed in 0..4000 {
        tally.same(format, &vandalised(format, seed), || format!("vandalised card {seed}")).ok();
    }
    tally.met([0, 1, 3, 4, 5, 6, 7], 25);
    assert_eq!(tally.seen[2], 0);
}

#[test]
fn full_sized_cards() {
    for format in Format::BOTH {
        let mut tally = Tally::default();
        for seed in 0..6 {
            let card = sized(format, seed, 8192);
            let answer = tally.same(format, &card.image, || format!("card of 8,192, seed {seed}"));
            assert_eq!(answer, Ok(card.counts));
        }
        for clusters in [8200, 33_000, MOST_CLUSTERS] {
            let card = sized(format, 6, clusters);
            assert_eq!(tally.same(format, &card.image, || format!("card of {clusters}")), Ok(card.counts));
        }
        tally.met([0], 9);
    }
}
