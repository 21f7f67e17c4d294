//! A refused call tells no count of mended chunks and leaves the lent one alone: `compare` sees to it in every call.
//! Here each refusal comes after pages with flips, by library and reader.

mod common;

use common::lookups::Lookups;
use common::mended::{card, counted, flip_chunks, needed_pages, PATHS};
use common::{flip_each_chunk, same, with_page, Tally};
use compare::format::Number;
use compare::{listing, lookup};
use reader::build::scribble::{break_page, flip};
use reader::build::{bad, needed};
use reader::page;
use reader::rng::Rng;
use reader::Format::Raw;
use reader::{Answer, Refusal};

/// All calls refuse alike, whatever the path.
fn refused(image: &[u8], refusal: Refusal, tally: &mut Tally, what: impl Fn() -> String) {
    assert_eq!(tally.same(Raw, image, &what), Err(refusal), "{}", what());
    assert_eq!(listing::whole(Raw, image), format!("{refusal}\n"), "{}", what());
    let mut lookups = Lookups::new(Raw);
    for path in [&b"/"[..], b"/f", b"/no", b""] {
        lookups.refused(image, path, refusal, &what);
    }
}

/// 1 to 7: the cards that the check refuses, with a flip in each chunk of their readable pages, of great cards the
/// first ones.
#[test]
fn refused_cards() {
    let (mut tally, mut rng) = (Tally::default(), Rng::new(7));
    for bad in bad::all(Raw) {
        let mut image = bad.image;
        let pages = image.len() / Raw.page_bytes();
        (0..pages.min(1000)).for_each(|page| flip_each_chunk(&mut image, page, &mut rng));
        refused(&image, bad.refusal, &mut tally, || bad.name.into());
    }
    tally.met(1..=7, 2);
}

/// 2 for each page that the check needs, with a flip in every chunk of the others: a second flip in one of its chunks,
/// beside three corrected ones.
#[test]
fn unreadable_pages() {
    let mut image = card(Raw);
    let needed = needed_pages(&image);
    needed.iter().for_each(|&page| flip_chunks(&mut image, page, 0..4));
    let mut tally = Tally::default();
    for (place, page) in needed.into_iter().enumerate() {
        let ruin = |image: &mut [u8]| {
            flip(Raw, image, page, place % 4, 333);
            assert_eq!(page::read(Raw, image, page), None);
        };
        let look = |image: &[u8]| {
            refused(image, Refusal::unreadable(page), &mut tally, || format!("page {page} unreadable"));
        };
        with_page(Raw, &mut image, page, ruin, look);
    }
    assert_eq!(counted(Raw, &image, &PATHS, || "every page put back".into()), 4 * 47);
}

/// 8, 9, 10 and 15, and 2 for a file's page after others that were corrected; the reads beside them are counted.
#[test]
fn refused_requests() {
    let mut image = card(Raw);
    needed_pages(&image).iter().for_each(|&page| flip_chunks(&mut image, page, 0..4));
    let here = String::new;
    let mut lookups = Lookups::new(Raw);
    for (path, number) in [
        (&b""[..], 8),
        (b"/f/", 8),
        (b"/d/d/d/d/d/d/d/d/9", 8),
        (b"/no", 9),
        (b"/x", 9),
        (b"/d/d/no", 9),
        (b"/d/no/x", 9),
        (b"/f/x", 10),
        (b"/d/f/x/y", 10),
    ] {
        lookups.refused(&image, path, Refusal::number(number), here);
    }
    let [ten, fifteen] = [10, 15].map(Refusal::number);
    for slot in [0, 2, 5, u32::MAX] {
        assert_eq!(lookups.step_mended(&image, b"/d/f", slot, here), Err(ten));
    }
    for (offset, size) in [(0, 0), (0, 600), (5, 9), (usize::MAX, 9)] {
        assert_eq!(lookups.read_mended(&image, b"/d", offset, size, here).0, Err(ten));
        assert_eq!(lookups.read_mended(&image, b"/d/f", 701 + offset / 2, size, here).0, Err(fifteen));
    }

    // The file's first page is corrected in three chunks, its second unreadable.
    let pages = needed::by_read(Raw, &image, b"/d/f", 0, 700);
    flip_chunks(&mut image, pages[0], 1..4);
    break_page(Raw, &mut image, pages[1]);
    for (offset, size) in [(0, 513), (0, 700), (511, 2), (512, 1), (600, 9000)] {
        let answer = lookups.read_mended(&image, b"/d/f", offset, size, here).0;
        assert_eq!(answer, Err(Refusal::unreadable(pages[1])), "{size} from {offset}");
    }
    for (offset, size, value, mended) in [(0, 512, 512, 3), (511, 1, 1, 3), (700, 9, 0, 0), (512, 0, 0, 0)] {
        let answer = lookups.read_mended(&image, b"/d/f", offset, size, here).0;
        assert_eq!(answer, Ok(Answer { value, mended: 4 * 47 + mended }), "{size} from {offset}");
    }
    assert_eq!(lookups.read_mended(&image, b"/d/f", 701, 0, here).0, Err(fifteen));
    assert_eq!(same(Raw, &image, "no file's page is needed").map(|counts| counts.mended), Ok(4 * 47));
}

/// 1 for numbers that name no format, with flips in every page that the check would need.
#[test]
fn no_format() {
    let mut image = card(Raw);
    needed_pages(&image).iter().for_each(|&page| flip_chunks(&mut image, page, 0..4));
    let one = Refusal::number(1);
    for number in [2, 255, 256, 257, 1 << 16, 1 << 31, u32::MAX].map(Number) {
        assert_eq!(compare::check(number, &image), Err(one), "{number:?}");
        assert_eq!(listing::whole(number, &image), "refused 1\n", "{number:?}");
        for path in [&b"/"[..], b"/f", b""] {
            assert_eq!(lookup::find_mended(number, &image, path), Err(one), "{number:?}");
            assert_eq!(lookup::step_mended(number, &image, path, 2), Err(one), "{number:?}");
            assert_eq!(lookup::read_mended(number, &image, path, 0, &mut [0; 600]), Err(one), "{number:?}");
        }
    }
}
