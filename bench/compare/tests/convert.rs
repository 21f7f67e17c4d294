//! The conversions: lengths, outputs and unreadable pages in their order, and every byte written.

mod common;

use common::converts::{needed, Converts};
use common::{flip_each_chunk, mend};
use compare::cards::full;
use reader::build::draw::random_page;
use reader::build::random::{random, sized};
use reader::build::scribble::{break_page, flip, junk_spare, ruin};
use reader::build::{bench, standard, Assembly, Layout};
use reader::card::{is_allowed, MOST_CLUSTERS};
use reader::ecc::code_of;
use reader::page::{self, DATA};
use reader::rng::Rng;
use reader::{Counts, Format, Refusal};

/// A raw image of so many clusters with junk in its pages, all of them readable.
fn readable(rng: &mut Rng, clusters: usize) -> Vec<u8> {
    let mut image = rng.bytes(clusters * Format::Raw.cluster_bytes());
    (0..2 * clusters).for_each(|page| page::write(Format::Raw, &mut image, page, &random_page(rng)));
    image
}

/// Source and output at and around every right length of small cards, and at the greatest: 1 before 23.
#[test]
fn lengths() {
    for from in Format::BOTH {
        let (bytes, other) = (from.cluster_bytes(), from.other().cluster_bytes());
        let mut converts = Converts::default();
        let mut source = standard(from);
        source.resize((MOST_CLUSTERS + 9) * bytes, 0xFF);
        for clusters in (0..=136).chain([255, 256, 264, 8192, 8193, 8200, 65_535, 65_536, 65_537, 65_544]) {
            let (exact, right) = (clusters * bytes, clusters * other);
            let page = from.page_bytes();
            for length in [exact, exact + 1, exact + page].into_iter().chain(exact.checked_sub(1)) {
                let is_card = length == exact && is_allowed(clusters);
                // Where there is no card, an output that would fit makes no difference; a great one takes its time.
                let rooms = [right, right + 1, right.saturating_sub(1), 0, length];
                let rooms = match (is_card, clusters) {
                    (true, ..=264) => &rooms[..],
                    (false, 10_000..) => &rooms[3..4],
                    _ => &rooms[..2],
                };
                for &room in rooms {
                    let (answer, _) =
                        converts.with_room(from, &source[..length], room, || format!("{clusters} clusters"));
                    let expected = match (is_card, room == right) {
                        (false, _) => Err(Refusal::number(1)),
                        (true, false) => Err(Refusal::number(23)),
                        (true, true) => Ok(()),
                    };
                    assert_eq!(answer, expected, "{from:?}, {length} bytes into {room}");
                }
            }
        }
        converts.tally.met([0, 1, 23], 15);
    }
}

/// Each page of a small card made unreadable, by itself and with others after it; 1 and 23 come before.
#[test]
fn unreadable_pages() {
    let mut converts = Converts::default();
    let mut rng = Rng::new(32);
    let image = readable(&mut rng, 32);
    let right = needed(Format::Raw, image.len());
    for page in 0..64 {
        let two = Err(Refusal::unreadable(page));
        let mut image = image.clone();
        let chunk = rng.below(4);
        ruin(Format::Raw, &mut image, page, chunk, &mut rng);
        let what = || format!("page {page} ruined in chunk {chunk}");
        assert_eq!(converts.whole(Format::Raw, &image, what).map(drop), two);
        for other in [page + 1, 63].into_iter().filter(|&other| page < other && other < 64) {
            let mut image = image.clone();
            break_page(Format::Raw, &mut image, other);
            let what = || format!("pages {page} and {other} unreadable");
            assert_eq!(converts.whole(Format::Raw, &image, what).map(drop), two);
        }
        for room in [right - 1, right + 1, 0] {
            assert_eq!(converts.with_room(Format::Raw, &image, room, what).0, Err(Refusal::number(23)));
        }
        for length in [image.len() - 1, image.len() - Format::Raw.page_bytes()] {
            assert_eq!(converts.with_room(Format::Raw, &image[..length], right, what).0, Err(Refusal::number(1)));
        }
    }
    converts.tally.met([1, 2, 23], 64);
}

/// Every data and code bit that counts, flipped in turn: the page comes out corrected.
#[test]
fn corrected_bits() {
    let mut converts = Converts::default();
    let mut rng = Rng::new(1044);
    let mut image = readable(&mut rng, 32);
    let plain = converts.whole(Format::Raw, &image, || "good codes".into()).expect("every page is readable");
    let mut same = |image: &[u8], what: &str| {
        let answer = converts.whole(Format::Raw, image, || what.into());
        assert!(answer.as_ref() == Ok(&plain), "{what}");
    };
    for place in 0..1044 {
        let (page, chunk) = (place % 64, place % 4);
        flip(Format::Raw, &mut image, page, chunk, place);
        same(&image, &format!("bit {place} of page {page}"));
        mend(&mut image, page);
    }
    for page in 0..64 {
        flip_each_chunk(&mut image, page, &mut rng);
        junk_spare(&mut image, page, &mut rng);
    }
    same(&image, "a flip in every chunk");
}

/// Any bytes convert, whatever they hold: the data as it is one way, fresh codes and four zeros the other.
#[test]
fn unchecked_contents() {
    let mut converts = Converts::default();
    for seed in 0..60 {
        let mut rng = Rng::new(seed);
        let what = || format!("junk of seed {seed}");
        let clusters = 8 * rng.between(4, 16);
        let plain = rng.bytes(clusters * Format::Plain.cluster_bytes());
        let raw = converts.whole(Format::Plain, &plain, what).expect("no plain page is unreadable");
        for page in 0..2 * clusters {
            let data = &plain[Format::Plain.place(page)];
            let code: Vec<u8> = data.chunks(128).flat_map(code_of).collect();
            assert_eq!(raw[Format::Raw.place(page)], [data, &code, &[0; 4]].concat(), "page {page}, {}", what());
        }
        let image = readable(&mut rng, clusters);
        let data: Vec<u8> =
            (0..2 * clusters).flat_map(|page| &image[Format::Raw.place(page)][..DATA]).copied().collect();
        assert!(converts.whole(Format::Raw, &image, what) == Ok(data), "{}", what());
        // Without codes, hardly a page is readable.
        let junk = rng.bytes(clusters * Format::Raw.cluster_bytes());
        converts.whole(Format::Raw, &junk, what).unwrap_err();
    }
    converts.tally.met([0, 2], 60);
}

/// Random cards, worn ones among them; each that converts is there again after the way back.
#[test]
fn random_cards() {
    let mut converts = Converts::default();
    for (from, seed) in Format::BOTH.into_iter().flat_map(|from| (0..150).map(move |seed| (from, seed))) {
        let mut card = random(from, seed);
        let what = || format!("random card {seed}");
        converts.whole(from, &card.image, what).ok();
        if from == Format::Raw {
            let mut rng = Rng::new(seed);
            for page in 0..2 * card.layout.clusters {
                if !mend(&mut card.image, page) {
                    page::write(from, &mut card.image, page, &random_page(&mut rng));
                }
                card.image[from.place(page)][DATA + 12..].fill(0);
            }
        }
        let there = converts.whole(from, &card.image, what).expect("every page is readable");
        assert!(converts.whole(from.other(), &there, what) == Ok(card.image), "{from:?}, {}", what());
        // The check says the same of both, but that nothing is left to mend.
        let counts = Counts { mended: 0, ..card.counts };
        assert_eq!(compare::check(from.other(), &there), Ok(counts), "{from:?}, {}", what());
    }
    converts.tally.met([0, 2], 100);
}

/// The greatest cards, and the full one that PCSX2 wrote.
#[test]
fn full_sized_cards() {
    let mut converts = Converts::default();
    let what = || "a card of 8,192".into();
    for plain in [standard(Format::Plain), sized(Format::Plain, 5, 8192).image, full(Format::Plain)] {
        let raw = converts.whole(Format::Plain, &plain, what).expect("no plain page is unreadable");
        assert!(converts.whole(Format::Raw, &raw, what) == Ok(plain));
    }
    assert!(converts.whole(Format::Raw, &full(Format::Raw), what) == Ok(full(Format::Plain)));
    converts.whole(Format::Raw, &sized(Format::Raw, 5, 8192).image, what).unwrap_err();
}

/// 256 raw clusters are as long as 264 plain ones: each conversion judges by its own source's format.
#[test]
fn lengths_of_both_formats() {
    let mut converts = Converts::default();
    let what = || "a length of both formats".into();
    for (from, clusters) in [(Format::Raw, 256), (Format::Plain, 264)] {
        let image = Assembly::with_root(from, Layout { clusters, ..Layout::bench() }).finish();
        let output = converts.whole(from, &image, what).expect("its pages are readable");
        assert_eq!(output.len(), clusters * from.other().cluster_bytes());
    }
    let plain = Assembly::with_root(Format::Plain, Layout { clusters: 264, ..Layout::bench() }).finish();
    let answer = converts.whole(Format::Raw, &plain, what).map(drop);
    assert_eq!(answer, Err(Refusal::unreadable(0)));
}

/// The image may lie at any address, stays as it is, and converts the same when asked again.
#[test]
fn any_address() {
    let mut converts = Converts::default();
    let mut worn = bench(Format::Raw);
    break_page(Format::Raw, &mut worn, 77);
    for (from, image) in Format::BOTH.map(|from| (from, bench(from))).into_iter().chain([(Format::Raw, worn)]) {
        let expected = converts.whole(from, &image, || "at its place".into());
        for shift in 1..8 {
            let shifted = [&vec![0xA5; shift][..], &image].concat();
            assert!(converts.whole(from, &shifted[shift..], || format!("shifted by {shift}")) == expected);
            assert!(shifted[shift..] == image[..]);
        }
        assert!(converts.whole(from, &image, || "again".into()) == expected);
    }
    converts.tally.met([0, 2], 9);
}
