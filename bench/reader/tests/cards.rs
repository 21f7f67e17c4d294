//! Every trap card of both formats: accepted with its counts, or refused with its number and page.

use reader::build::{bad, good, usual_time};
use reader::{check, create, delete, find, list, make_dir, read, remove_dir, replace, step, tree, Format};

#[test]
fn good_cards() {
    for card in Format::BOTH.into_iter().flat_map(good::all) {
        assert_eq!(check(card.format, &card.image), Ok(card.counts), "{:?}, {}", card.format, card.name);
    }
}

#[test]
fn bad_cards() {
    for format in Format::BOTH {
        let cards = bad::all(format);
        for card in &cards {
            assert_eq!(check(format, &card.image), Err(card.refusal), "{format:?}, {}", card.name);
        }
        for number in 1..=7 {
            let is_met = cards.iter().any(|card| card.refusal.number == number);
            assert_eq!(is_met, (format, number) != (Format::Plain, 2), "a {format:?} card for {number}");
        }
        let mut names: Vec<&str> = cards.iter().map(|card| card.name).collect();
        names.sort();
        names.dedup();
        assert_eq!(names.len(), cards.len(), "names tell the cards apart");
    }
}

/// The check comes first in every call, before path and time are looked at.
#[test]
fn every_call_checks_first() {
    let bad_time = [1; 8];
    for card in Format::BOTH.into_iter().flat_map(bad::all) {
        let (format, refusal) = (card.format, Err(card.refusal));
        let mut image = card.image.clone();
        assert_eq!(find(format, &image, b"").map(|_| ()), refusal);
        assert_eq!(step(format, &image, b"x", 0).map(|_| ()), refusal);
        assert_eq!(read(format, &image, b"//", 9, &mut [0; 9]).map(|_| ()), refusal);
        assert_eq!(tree(format, &image).map(|_| ()), refusal);
        assert_eq!(create(format, &mut image, b"", &bad_time, b""), refusal);
        assert_eq!(replace(format, &mut image, b"/F", &usual_time(), b""), refusal);
        assert_eq!(make_dir(format, &mut image, b"/", &bad_time), refusal);
        assert_eq!(delete(format, &mut image, b"/F"), refusal);
        assert_eq!(remove_dir(format, &mut image, b"/"), refusal);
        assert_eq!(list(format, &image, 0), format!("{}\n", card.refusal));
        assert_eq!(image, card.image, "{}", card.name);
    }
}
