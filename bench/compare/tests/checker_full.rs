//! The ordinary checker gives the same answers as library and reader on full cards, sound and damaged, and great ones.

mod common;

use common::checker::Met;
use common::mended::flip_everything;
use common::{flip_each_chunk, many_flips, with_page};
use compare::cards::{counts_by_tree, full, full_great, great_directory, Names};
use reader::build::{needed, scribble, Layout};
use reader::card::MOST_CLUSTERS;
use reader::page;
use reader::rng::Rng;
use reader::Format::{self, Plain, Raw};
use reader::{Counts, Refusal};

/// Pages of the superblock, the indirect cluster and the table of PCSX2's card; these come first among those needed.
const BEFORE_TREE: usize = 67;

/// One page after the other damaged, the draws spread over all kinds of pages and damage, and so many bits of the
/// superblock, whose rules have few each; everything is put back.
fn damaged(format: Format, image: &mut [u8], before_tree: usize, rounds: u64, bits: usize, met: &mut Met) {
    let needed = needed::by_check(format, image);
    for seed in 0..rounds {
        let mut rng = Rng::new(seed ^ 0xF011);
        let page = match rng.below(4) {
            0 => rng.below(image.len() / format.page_bytes()),
            1 => needed[rng.below(before_tree)],
            _ => *rng.pick(&needed),
        };
        let kind = rng.below(8);
        let change = |image: &mut [u8]| match kind {
            0 => scribble::ruin(format, image, page, rng.below(4), &mut rng),
            1 if format == Raw => flip_each_chunk(image, page, &mut rng),
            1..=2 => many_flips(format, image, page, &mut rng),
            3 => image[format.place(page)].fill(0xFF),
            4 => rng.fill(&mut image[format.place(page)]),
            _ => {
                let mut data = page::read(format, image, page).expect("a sound card");
                let at = if page == 0 { rng.below(0x150) } else { rng.below(0x60) };
                data[at] ^= 1 << rng.below(8);
                page::write(format, image, page, &data);
            }
        };
        let what = || format!("seed {seed}, page {page}, kind {kind}");
        let answer = with_page(format, image, page, change, |image| met.same(format, image, what));
        if format == Raw && kind == 0 && needed.contains(&page) {
            assert_eq!(answer, Err(Refusal::unreadable(page)), "{}", what());
        }
    }
    for bit in (0..8 * 0x150).step_by(8 * 0x150 / bits) {
        let change = |image: &mut [u8]| {
            let mut data = page::read(format, image, 0).expect("a sound card");
            data[bit / 8] ^= 1 << (bit % 8);
            page::write(format, image, 0, &data);
        };
        with_page(format, image, 0, change, |image| met.same(format, image, || format!("bit {bit} of page 0"))).ok();
    }
    for length in [image.len() - 1, image.len() - format.page_bytes(), image.len() - 8 * format.cluster_bytes(), 0] {
        met.same(format, &image[..length], || format!("{length} bytes")).expect_err("another length");
    }
}

/// The full card PCSX2 wrote; its counts follow from what PCSX2 read.
#[test]
fn full_card() {
    for format in Format::BOTH {
        let mut met = Met::default();
        let mut image = full(format);
        let counts = counts_by_tree("full-small.tree", &Layout::standard());
        assert_eq!(met.same(format, &image, || "full card".into()), Ok(counts));
        damaged(format, &mut image, BEFORE_TREE, 1500, 896, &mut met);
        assert_eq!(met.same(format, &image, || "put back".into()), Ok(counts));
        met.answers.met([0, 3, 4, 6, 7], 50);
        met.answers.met([1, 5], 3);
        met.counted([if format == Raw { 100 } else { 0 }, 100, 20]);
        assert_eq!(met.answers.seen[2] >= 100, format == Raw);
    }
}

/// The full card of 64 MiB with 16,000 files.
#[test]
fn full_card_of_64_mib() {
    for format in Format::BOTH {
        let mut met = Met::default();
        let mut image = full_great(format);
        met.same(format, &image, || "full card of 64 MiB".into()).expect("an accepted card");
        damaged(format, &mut image, 1 + 2 + 2 * 255, 150, 80, &mut met);
        met.answers.met([0, 1, 3, 4, 6, 7], 3);
        met.counted([if format == Raw { 10 } else { 0 }, 0, 1]);
    }
}

/// Every chunk of every page with one flip: four for each page that is needed.
#[test]
fn every_chunk() {
    let mut met = Met::default();
    for mut image in [full(Raw), full_great(Raw)] {
        let needed = needed::by_check(Raw, &image).len();
        let counts = met.same(Raw, &image, || "sound".into()).expect("an accepted card");
        flip_everything(&mut image, &mut Rng::new(needed as u64));
        let expected = Counts { mended: 4 * needed, ..counts };
        assert_eq!(met.same(Raw, &image, || "every chunk".into()), Ok(expected));
        println!("{needed} pages needed");
    }
    met.counted([2, 2, 0]);
}

/// One directory of 60,000 entries, with names in every order, and a twin at either end or between.
#[test]
fn great_directories() {
    let mut met = Met::default();
    for (format, names) in Names::ALL.map(|names| (Raw, names)).into_iter().chain([(Plain, Names::Shuffled)]) {
        let mut card = great_directory(format, names);
        assert_eq!(met.same(format, &card.image, || format!("60,000, {names:?}")), Ok(card.counts));
        // The root has two clusters, the directory's chain follows.
        let first = 2 * (Layout::fresh(MOST_CLUSTERS).alloc_offset + 2);
        for (one, other) in [(2, 60_001), (60_000, 60_001), (2, 3), (20_000, 40_001)] {
            let twin = page::read(format, &card.image, first + one).expect("an entry");
            let change = |image: &mut [u8]| page::write(format, image, first + other, &twin);
            let what = || format!("{names:?}, slots {one} and {other}");
            let answer =
                with_page(format, &mut card.image, first + other, change, |image| met.same(format, image, what));
            assert_eq!(answer, Err(Refusal::number(7)), "{}", what());
        }
    }
    met.answers.met([0], 5);
    met.answers.met([7], 20);
}
