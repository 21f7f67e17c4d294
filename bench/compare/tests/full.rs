//! The library's check equals the reader's on the full card PCSX2 wrote, sound and damaged, and on a crowded one.

mod common;

use common::{flip_each_chunk, many_flips, same, with_page, Tally};
use compare::cards::{counts_by_tree, full};
use reader::build::{crowded, needed, scribble, Layout};
use reader::page;
use reader::rng::Rng;
use reader::{Counts, Format, Refusal};

/// The counts aren't the reader's: they follow from what PCSX2 read.
#[test]
fn full_card() {
    for format in Format::BOTH {
        let counts = counts_by_tree("full-small.tree", &Layout::standard());
        assert_eq!(same(format, &full(format), "full card"), Ok(counts));
    }
}

/// One page of the full card damaged: the answer follows from whether the check needs that page, and for a raw card
/// often from its code alone.
fn single_pages(format: Format, seeds: std::ops::Range<u64>) -> Tally {
    let mut image = full(format);
    let counts = counts_by_tree("full-small.tree", &Layout::standard());
    let needed = needed::by_check(format, &image);
    let mut tally = Tally::default();
    for seed in seeds {
        let mut rng = Rng::new(seed);
        // Superblock, indirect cluster and table come first among the needed pages; they are few, so they get their own
        // draw.
        let page = match rng.below(4) {
            0 => rng.below(image.len() / format.page_bytes()),
            1 => needed[rng.below(67)],
            _ => *rng.pick(&needed),
        };
        let kind = rng.below(7);
        let change = |image: &mut [u8]| match kind {
            0..=1 => scribble::ruin(format, image, page, rng.below(4), &mut rng),
            2 if format == Format::Raw => flip_each_chunk(image, page, &mut rng),
            2..=3 => many_flips(format, image, page, &mut rng),
            4 => image[format.place(page)].fill(0xFF),
            5 => rng.fill(&mut image[format.place(page)]),
            _ => {
                let mut data = page::read(format, image, page).expect("PCSX2 wrote good codes");
                let at = rng.below(0x60);
                data[at] ^= 1 << rng.below(8);
                page::write(format, image, page, &data);
            }
        };
        let what = || format!("seed {seed}, page {page}, kind {kind}");
        let answer = with_page(format, &mut image, page, change, |image| tally.same(format, image, what));
        let expected = match (format, kind) {
            _ if !needed.contains(&page) => Ok(counts),
            (Format::Raw, 0..=1) => Err(Refusal::unreadable(page)),
            (Format::Raw, 2) => Ok(Counts { mended: 4, ..counts }),
            _ => continue,
        };
        assert_eq!(answer, expected, "{}", what());
    }
    assert_eq!(same(format, &image, "every page put back"), Ok(counts));
    tally
}

#[test]
fn raw_pages() {
    single_pages(Format::Raw, 0..800).met([0, 2, 6, 7], 10);
}

#[test]
fn plain_pages() {
    let tally = single_pages(Format::Plain, 0..800);
    tally.met([0, 6, 7], 10);
    assert_eq!(tally.seen[2], 0);
}

#[test]
fn crowded_card() {
    // 21 clusters of the root, 26 of each directory, and each file's own.
    let files: usize = (0..40 * 50).map(|n| (1 + (n / 50 * 977 + n % 50 * 211) % 2500_usize).div_ceil(1024)).sum();
    let reached = 21 + 40 * 26 + files;
    let counts = Layout::standard().counts(reached);
    for format in Format::BOTH {
        assert_eq!(same(format, &crowded(format), "crowded card"), Ok(counts));
    }
}
