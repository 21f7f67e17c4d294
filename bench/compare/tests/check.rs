//! The library's check equals the reader's on cards drawn up by hand, and on images of any length.

mod common;

use common::{same, Tally};
use compare::cards::{bench_sample, counts_by_tree, many_directories, one_directory, Names};
use reader::build::draw::{random_layout, random_page};
use reader::build::scribble::flip;
use reader::build::{bad, bench, good, standard, Assembly, Layout};
use reader::card::{clusters_of, is_allowed, MOST_CLUSTERS};
use reader::page;
use reader::rng::Rng;
use reader::{Counts, Format, Refusal};

#[test]
fn bench_card() {
    for format in Format::BOTH {
        let fresh = Counts { clusters: 56, free: 29, reached: 1, orphaned: 0, held: 0, mended: 0 };
        assert_eq!(same(format, &bench(format), "bench card"), Ok(fresh));
    }
}

#[test]
fn pcsx2_sample() {
    for format in Format::BOTH {
        let counts = counts_by_tree("bench-sample.tree", &Layout::bench());
        assert_eq!(same(format, &bench_sample(format), "PCSX2's sample"), Ok(counts));
    }
}

#[test]
fn good_cards() {
    for card in Format::BOTH.into_iter().flat_map(good::all) {
        assert_eq!(same(card.format, &card.image, card.name), Ok(card.counts), "{:?}, {}", card.format, card.name);
    }
}

#[test]
fn bad_cards() {
    for format in Format::BOTH {
        let mut tally = Tally::default();
        for card in bad::all(format) {
            let answer = tally.same(format, &card.image, || card.name.into());
            assert_eq!(answer, Err(card.refusal), "{format:?}, {}", card.name);
        }
        tally.met((1..=7).filter(|&number| format == Format::Raw || number != 2), 2);
    }
}

/// The two dots, length and order of names make no difference to the answer.
#[test]
fn many_entries() {
    for (format, names) in Format::BOTH.into_iter().flat_map(|format| Names::ALL.map(|names| (format, names))) {
        for card in [one_directory(format, names), many_directories(format, names)] {
            let what = format!("{} entries, {names:?}", card.entries);
            assert_eq!(same(format, &card.image, &what), Ok(card.counts), "{what}");
        }
    }
}

/// A twin is found wherever the two stand among 4,000 names.
#[test]
fn twins_far_apart() {
    let mut rng = Rng::new(4000);
    for (format, names) in Format::BOTH.into_iter().flat_map(|format| Names::ALL.map(|names| (format, names))) {
        let mut card = one_directory(format, names);
        // The root has two clusters, the directory's chain follows: slot s of it is page 2 (41 + 2) + s.
        let page_of = |slot: usize| 86 + slot;
        let mut pairs = vec![(2, 4001), (2, 3), (4000, 4001)];
        for _ in 0..20 {
            let one = rng.between(2, 4000);
            pairs.push((one, rng.between(one + 1, 4001)));
        }
        for (one, other) in pairs {
            let twin = page::read(format, &card.image, page_of(one)).expect("an entry");
            let change = |image: &mut [u8]| page::write(format, image, page_of(other), &twin);
            let what = format!("{names:?}, slots {one} and {other}");
            let look = |image: &[u8]| same(format, image, &what);
            let answer = common::with_page(format, &mut card.image, page_of(other), change, look);
            assert_eq!(answer, Err(Refusal::number(7)), "{what}");
        }
        assert_eq!(same(format, &card.image, "put back"), Ok(card.counts));
    }
}

/// Every number of clusters up to beyond the greatest, a byte or a page more or less: only right lengths get past 1.
#[test]
fn every_length() {
    for format in Format::BOTH {
        let bytes = format.cluster_bytes();
        let mut image = standard(format);
        image.resize((MOST_CLUSTERS + 200) * Format::Raw.cluster_bytes(), 0xFF);
        let mut tally = Tally::default();
        for clusters in 0..MOST_CLUSTERS + 100 {
            let exact = clusters * bytes;
            for length in [exact.saturating_sub(1), exact, exact + 1, exact + 512, exact + 528] {
                let is_right = length == exact && is_allowed(clusters);
                let answer = tally.same(format, &image[..length], || format!("{length} bytes"));
                assert_eq!(answer != Err(Refusal::number(1)), is_right, "{format:?}, {length} bytes");
            }
        }
        // The superblock says 8,192, so only that length is accepted; the others have the wrong number there.
        assert_eq!((tally.seen[0], tally.seen[4]), (1, MOST_CLUSTERS / 8 - 4));
        // 8,192 raw clusters are as long as 8,448 plain ones, which are allowed; no other one here is.
        for clusters in [32, 56, 8192, MOST_CLUSTERS - 8, MOST_CLUSTERS] {
            let length = clusters * format.other().cluster_bytes();
            let number = if clusters_of(format, length).is_some() { 4 } else { 1 };
            let answer = same(format, &image[..length], "the other format's length");
            assert_eq!(answer, Err(Refusal::number(number)), "{format:?}, {length} bytes");
        }
    }
}

/// 256 raw clusters are as long as 264 plain ones: the format that is said decides, never the contents.
#[test]
fn lengths_of_both_formats() {
    for times in [1, 2, 5, 31, 32, 248] {
        let (raw, plain) = (256 * times, 264 * times);
        let card = |format, clusters| Assembly::with_root(format, Layout { clusters, ..Layout::bench() }).finish();
        let images = [card(Format::Raw, raw), card(Format::Plain, plain)];
        assert_eq!(images[0].len(), images[1].len());
        let counts = |clusters| Counts { clusters, free: 29, reached: 1, orphaned: 0, held: 0, mended: 0 };
        assert_eq!(same(Format::Raw, &images[0], "raw as raw"), Ok(counts(raw)));
        assert_eq!(same(Format::Plain, &images[1], "plain as plain"), Ok(counts(plain)));
        assert_eq!(same(Format::Plain, &images[0], "raw as plain"), Err(Refusal::number(4)));
        assert_eq!(same(Format::Raw, &images[1], "plain as raw"), Err(Refusal::unreadable(0)));
    }
}

/// Junk from some point on: all of it, or all but superblock, indirect cluster and table; with good codes or none.
#[test]
fn random_bytes() {
    for format in Format::BOTH {
        let mut tally = Tally::default();
        for seed in 0..600 {
            let mut rng = Rng::new(seed);
            let clusters = 8 * rng.between(4, 12);
            let layout = random_layout(&mut rng, clusters);
            let kept = rng.below(6);
            let good_codes = rng.chance(3, 4);
            let sound = Assembly::with_root(format, layout.clone()).finish();
            let mut image = rng.bytes(sound.len());
            if good_codes {
                (0..2 * clusters).for_each(|page| page::write(format, &mut image, page, &random_page(&mut rng)));
            }
            let (indirect, table) = (layout.indirect, layout.table[0]);
            let root = layout.alloc_offset;
            let steps = [vec![0], vec![2 * indirect, 2 * indirect + 1], vec![2 * table, 2 * table + 1], vec![2 * root]];
            for &page in steps.iter().take(kept).flatten() {
                image[format.place(page)].copy_from_slice(&sound[format.place(page)]);
            }
            if kept == 5 {
                image[format.place(2 * root + 1)].copy_from_slice(&sound[format.place(2 * root + 1)]);
            }
            // The text alone takes page 0 one rule further.
            if good_codes && kept == 0 && rng.chance(1, 2) {
                let mut data = page::read(format, &image, 0).expect("its code is good");
                data[..28].copy_from_slice(&sound[..28]);
                page::write(format, &mut image, 0, &data);
            }
            tally.same(format, &image, || format!("seed {seed}")).ok();
        }
        tally.met([0, 3, 4, 5, 7], 10);
        assert_eq!(tally.seen[2] >= 10, format == Format::Raw);
    }
}

/// The image may lie at any address, stays as it is, and is answered the same when asked again.
#[test]
fn any_address() {
    for format in Format::BOTH {
        let good = good::all(format).into_iter().map(|card| card.image);
        let bad = bad::all(format).into_iter().map(|card| card.image);
        for image in good.chain(bad) {
            let answer = compare::check(format, &image);
            for shift in 1..8 {
                let mut shifted = vec![0xA5; shift];
                shifted.extend_from_slice(&image);
                assert_eq!(compare::check(format, &shifted[shift..]), answer);
                assert!(shifted[shift..] == image[..]);
            }
            assert_eq!(compare::check(format, &image), answer);
        }
    }
}

/// Every single flip of page 0 is seen through and counted, every pair in one chunk makes it unreadable.
#[test]
fn every_flip_and_pair() {
    let format = Format::Raw;
    let mut image = bench(format);
    let counts = same(format, &image, "bench card").map(|counts| Counts { mended: 1, ..counts });
    for chunk in 0..4 {
        for one in 0..1044 {
            flip(format, &mut image, 0, chunk, one);
            assert_eq!(same(format, &image, "one flip"), counts, "chunk {chunk}, flip {one}");
            for other in (one + 1..1044).step_by(if chunk == 0 { 1 } else { 7 }) {
                flip(format, &mut image, 0, chunk, other);
                let answer = same(format, &image, "two flips");
                assert_eq!(answer, Err(Refusal::unreadable(0)), "chunk {chunk}, flips {one} and {other}");
                flip(format, &mut image, 0, chunk, other);
            }
            flip(format, &mut image, 0, chunk, one);
        }
    }
}

/// The same flips in a plain superblock are other data: its text, its rules, or bytes that are never judged.
#[test]
fn every_flip_of_a_plain_page() {
    let format = Format::Plain;
    let mut image = bench(format);
    let mut tally = Tally::default();
    for bit in 0..8 * page::DATA {
        image[bit / 8] ^= 1 << (bit % 8);
        let answer = tally.same(format, &image, || format!("bit {bit}"));
        assert_eq!(answer == Err(Refusal::number(3)), bit < 8 * 28, "bit {bit}");
        image[bit / 8] ^= 1 << (bit % 8);
    }
    tally.met([0, 3, 4, 5], 20);
}
