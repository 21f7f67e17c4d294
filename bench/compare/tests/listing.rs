//! The library's listing and the reader's, byte for byte.

mod common;

use compare::{cards, listing};
use reader::build::{bad, good, random, samples, vandal};
use reader::Format;

fn same(format: Format, name: &str, image: &[u8]) -> String {
    let text = listing::whole(format, image);
    assert!(text == reader::list(format, image, 0), "{format:?}, {name}");
    text
}

#[test]
fn trap_cards() {
    for format in Format::BOTH {
        good::all(format).iter().for_each(|card| drop(same(format, card.name, &card.image)));
        let refused: Vec<String> = bad::all(format).iter().map(|card| same(format, card.name, &card.image)).collect();
        for number in (1..=7).filter(|&number| format == Format::Raw || number != 2) {
            let line = format!("refused {number}");
            assert!(refused.iter().any(|text| text.starts_with(&line)), "{format:?}, {number}");
        }
    }
}

fn random_cards(format: Format) {
    let lines = |seed| same(format, "random", &random::random(format, seed).image).lines().count();
    let entries: usize = (0..600).map(|seed| lines(seed) - 6).sum();
    assert!(entries > 3000, "only {entries} entries");
    let is_accepted = |seed| same(format, "vandalised", &vandal::vandalised(format, seed)).starts_with("card");
    let accepted = (0..600).filter(|&seed| is_accepted(seed)).count();
    assert!((60..540).contains(&accepted), "{accepted} of 600 vandalised cards accepted");
}

#[test]
fn random_raw_cards() {
    random_cards(Format::Raw);
}

#[test]
fn random_plain_cards() {
    random_cards(Format::Plain);
}

#[test]
fn full_card() {
    let texts = Format::BOTH.map(|format| same(format, "full", &cards::full(format)));
    assert!(texts[0].lines().count() > 2000 && texts[0] == texts[1]);
}

/// A buffer of any length takes the text's beginning, and the length told is the whole text's.
#[test]
fn short_buffers() {
    let raw = samples::save();
    let mut plain = vec![0; raw.len() / Format::Raw.page_bytes() * Format::Plain.page_bytes()];
    reader::to_plain(&raw, &mut plain).expect("its pages are readable");
    for (format, image) in [(Format::Raw, &raw), (Format::Plain, &plain)] {
        let whole = listing::whole(format, image).into_bytes();
        for room in 0..whole.len() + 3 {
            let (text, length) = listing::list(format, image, 0, room);
            assert_eq!((text.as_slice(), length), (&whole[..room.min(whole.len())], whole.len()));
        }
    }
}
