//! The ordinary checker, whose time the library's is compared with, gives the same answers as library and reader: so
//! what is timed does the same work.

mod common;

use common::checker::Met;
use common::mended::{flip_chunks, needed_pages};
use common::{flip_each_chunk, many_flips, mend, with_mended, with_page};
use compare::cards::{bench_sample, many_directories, one_directory, Crowd, Names};
use reader::build::random::{listed, random, sized, tight, RandomCard};
use reader::build::scribble::{self, flip, CODE_BITS, DATA_BITS, IGNORED_BITS};
use reader::build::vandal::{too_deep, vandalised};
use reader::build::Assembly;
use reader::build::{self, bad, bench, crowded, deep, draw, fresh, good, locks, needed, samples, withheld};
use reader::card::MOST_CLUSTERS;
use reader::page;
use reader::rng::Rng;
use reader::Format::{self, Plain, Raw};
use reader::{Counts, Refusal};

/// The numbers that a card of this format can be refused with, and 0 for acceptance.
fn all_answers(format: Format) -> impl Iterator<Item = usize> {
    (0..=7).filter(move |&number| format == Raw || number != 2)
}

/// Cards drawn by hand, with the answers they were built for.
#[test]
fn trap_cards() {
    for format in Format::BOTH {
        let mut met = Met::default();
        let goods = [good::all, build::tail::good, build::listed::good, build::listed::with_tail];
        let locked = [false, true].map(|is_full| locks::card(format, is_full));
        for card in goods.into_iter().flat_map(|cards| cards(format)).chain(locked) {
            assert_eq!(met.same(format, &card.image, || card.name.into()), Ok(card.counts), "{}", card.name);
        }
        for card in bad::all(format) {
            assert_eq!(met.same(format, &card.image, || card.name.into()), Err(card.refusal), "{}", card.name);
        }
        for sample in [withheld::TAIL, withheld::LISTED] {
            for free in 0..=3 {
                let card = sample.card(format, &sample.free[..free]).finish();
                assert_eq!(met.same(format, &card, || sample.name.into()).map(|counts| counts.free), Ok(free));
            }
        }
        let others = [bench(format), bench_sample(format), deep::sample(format).finish(), crowded(format)];
        for image in others {
            met.same(format, &image, || "a sample".into()).expect("an accepted card");
        }
        for names in Names::ALL {
            for Crowd { image, counts, .. } in [one_directory(format, names), many_directories(format, names)] {
                assert_eq!(met.same(format, &image, || format!("{names:?}")), Ok(counts));
            }
        }
        met.answers.met(all_answers(format), 5);
        met.counted([if format == Raw { 1 } else { 0 }, 50, 20]);
    }
}

/// The images that the listing programs are run on; taken for plain ones most have the wrong length.
#[test]
fn program_samples() {
    let mut met = Met::default();
    for (name, image) in samples::all().into_iter().chain([("shop", samples::shop())]) {
        for format in Format::BOTH {
            met.same(format, &image, || name.into()).ok();
        }
    }
    met.answers.met(0..=7, 1);
    met.counted([1, 0, 1]);
}

/// Lengths around every allowed one of small cards and around the greatest; most superblocks then say another N.
#[test]
fn lengths() {
    for format in Format::BOTH {
        let mut met = Met::default();
        let bytes = format.cluster_bytes();
        let mut image = bench(format);
        image.resize((MOST_CLUSTERS + 16) * bytes, 0xFF);
        for clusters in (0..200).chain(8180..8210).chain(MOST_CLUSTERS - 16..MOST_CLUSTERS + 16) {
            for length in [clusters * bytes, (clusters * bytes).saturating_sub(1), clusters * bytes + 512] {
                met.same(format, &image[..length], || format!("{length} bytes")).ok();
            }
        }
        met.answers.met([0], 1);
        met.answers.met([1, 4], 20);
    }
}

/// Random cards of every kind, by themselves, worn, with a page ruined, and with many flips in one page.
fn random_cards(format: Format, card: fn(Format, u64) -> RandomCard, seeds: u64) -> Met {
    let mut met = Met::default();
    for seed in 0..seeds {
        let card = card(format, seed);
        let mut rng = Rng::new(seed ^ 0x0DD_CA4D);
        assert_eq!(met.same(format, &card.image, || format!("random card {seed}")), Ok(card.counts), "{seed}");
        let needed = needed::by_check(format, &card.image);
        let mut image = card.image;
        if format == Raw {
            (0..rng.between(1, 20)).for_each(|_| flip_each_chunk(&mut image, *rng.pick(&needed), &mut rng));
            let counts = with_mended(format, &image, card.counts);
            assert_eq!(met.same(format, &image, || format!("random card {seed}, worn")), Ok(counts), "{seed}");
            let page = *rng.pick(&needed);
            let ruin = |image: &mut [u8]| {
                mend(image, page);
                scribble::ruin(format, image, page, rng.below(4), &mut rng);
            };
            let what = || format!("random card {seed}, ruined");
            let answer = with_page(format, &mut image, page, ruin, |image| met.same(format, image, what));
            assert_eq!(answer, Err(Refusal::unreadable(page)), "{seed}");
        }
        for _ in 0..4 {
            let page = *rng.pick(&needed);
            let change = |image: &mut [u8]| many_flips(format, image, page, &mut rng);
            let what = || format!("random card {seed}, many flips in page {page}");
            with_page(format, &mut image, page, change, |image| met.same(format, image, what)).ok();
        }
    }
    met
}

#[test]
fn random_raw_cards() {
    let met = random_cards(Raw, random, 1200);
    met.answers.met([0, 2], 1200);
    met.answers.met([3, 4, 6, 7], 10);
    met.counted([1000, 300, 300]);
}

#[test]
fn random_plain_cards() {
    let met = random_cards(Plain, random, 1200);
    met.answers.met([0, 3, 4, 5, 6, 7], 5);
    met.counted([0, 300, 300]);
}

/// Cards on which the list of bad blocks or the tail decides what is free, and cards of great sizes.
#[test]
fn withheld_cards() {
    for format in Format::BOTH {
        let worn = if format == Raw { 20 } else { 0 };
        random_cards(format, listed, 200).counted([worn, 200, 200]);
        random_cards(format, tight, 30).counted([worn, 30, 30]);
        let mut met = Met::default();
        for (seed, clusters) in [8184, 8192, 8200, 33_000, MOST_CLUSTERS].into_iter().enumerate() {
            let card = sized(format, seed as u64, clusters);
            assert_eq!(met.same(format, &card.image, || format!("{clusters} clusters")), Ok(card.counts));
            met.same(format, &fresh(format, clusters), || format!("{clusters} clusters, fresh")).expect("accepted");
        }
        met.answers.met([0], 10);
        met.counted([0, 1, 1]);
    }
}

/// Faults of every kind, one to three on a card; raw ones then with flips on top.
#[test]
fn vandalised_cards() {
    for format in Format::BOTH {
        let mut met = Met::default();
        for seed in 10_000..14_000 {
            let mut image = vandalised(format, seed);
            let answer = met.same(format, &image, || format!("vandalised card {seed}"));
            if format == Raw && answer != Err(Refusal::number(1)) {
                let mut rng = Rng::new(seed ^ 0x7A9DA1);
                let pages = image.len() / format.page_bytes();
                (0..rng.between(1, 8)).for_each(|_| flip_each_chunk(&mut image, rng.below(pages), &mut rng));
                let answer = answer.map(|counts| with_mended(format, &image, counts));
                assert_eq!(met.same(format, &image, || format!("vandalised card {seed}, flipped")), answer);
            }
        }
        for seed in 0..400 {
            if let Some(image) = too_deep(format, seed) {
                assert_eq!(met.same(format, &image, || format!("card {seed}, too deep")), Err(Refusal::number(7)));
            }
        }
        met.answers.met(all_answers(format), 100);
        met.counted([if format == Raw { 100 } else { 0 }, 100, 100]);
    }
}

/// Junk pages with good codes behind a few sound ones: superblock, indirect cluster, table, and two entries.
#[test]
fn junk() {
    for format in Format::BOTH {
        let mut met = Met::default();
        for seed in 0..1500 {
            let mut rng = Rng::new(seed);
            let clusters = 8 * rng.between(4, 12);
            let layout = draw::random_layout(&mut rng, clusters);
            let sound = Assembly::with_root(format, layout.clone()).finish();
            let mut image = sound.clone();
            (0..2 * clusters).for_each(|page| page::write(format, &mut image, page, &draw::random_page(&mut rng)));
            let sides = |cluster: usize| [2 * cluster, 2 * cluster + 1];
            let steps = [sides(layout.indirect), sides(layout.table[0]), sides(layout.alloc_offset)].concat();
            for page in [0].into_iter().chain(steps).take(rng.below(8)) {
                image[format.place(page)].copy_from_slice(&sound[format.place(page)]);
            }
            met.same(format, &image, || format!("junk {seed}")).ok();
        }
        met.answers.met([0, 3, 5, 7], 20);
    }
}

/// Every single flip of every needed page of the bench card: data, counted code bits, and bits that are ignored.
#[test]
fn every_flip() {
    let mut met = Met::default();
    let mut image = bench(Raw);
    let counts = met.same(Raw, &image, || "bench card".into()).expect("an accepted card");
    for page in needed::by_check(Raw, &image) {
        for (chunk, place) in (0..4).flat_map(|chunk| (0..DATA_BITS + CODE_BITS).map(move |place| (chunk, place))) {
            flip(Raw, &mut image, page, chunk, place);
            let answer = met.same(Raw, &image, || format!("page {page}, chunk {chunk}, bit {place}"));
            assert_eq!(answer, Ok(Counts { mended: 1, ..counts }));
            let other = (place + 1 + (37 * place) % 1043) % 1044;
            flip(Raw, &mut image, page, chunk, other);
            let answer = met.same(Raw, &image, || format!("page {page}, chunk {chunk}, bits {place} and {other}"));
            assert_eq!(answer, Err(Refusal::unreadable(page)));
            [place, other].iter().for_each(|&place| flip(Raw, &mut image, page, chunk, place));
        }
        for place in 0..IGNORED_BITS {
            scribble::flip_ignored(&mut image, page, place);
            assert_eq!(met.same(Raw, &image, || format!("page {page}, ignored {place}")), Ok(counts));
        }
    }
    met.answers.met([0, 2], 7 * 4 * 1044);
    met.counted([7 * 4 * 1044, 0, 0]);

    // A card with every kind of page: each chunk of the needed ones flipped, one page after the other.
    let mut image = common::mended::card(Raw);
    let pages = needed_pages(&image);
    for (number, &page) in pages.iter().enumerate() {
        flip_chunks(&mut image, page, 0..4);
        let answer = met.same(Raw, &image, || format!("flips in {number} pages"));
        assert_eq!(answer.map(|counts| counts.mended), Ok(4 * (number + 1)));
    }
}
