//! The count of mended chunks by library and reader on a card drawn up by hand: which bits, chunks and pages count, in
//! which calls, and what a change leaves of them.

mod common;

use common::changes::{five, Changes};
use common::lookups::Lookups;
use common::mended::{card, counted, flip_chunks, flip_everything, needed_pages, places, PAGES, PATHS};
use common::{same, with_page};
use compare::listing;
use reader::build::scribble::{flip_ignored, IGNORED_BITS};
use reader::build::{bench, needed, scribble, usual_time};
use reader::rng::Rng;
use reader::Format::{Plain, Raw};
use reader::{create, delete, make_dir, Answer, Refusal};

/// One bit of any page, by all calls: 1 where the check needs the page, and 0 in the files' pages, behind the last
/// entries of directories, in free, orphaned and backup pages, and in those that nobody names.
#[test]
fn every_page() {
    let mut image = card(Raw);
    let (needed, places) = (needed_pages(&image), places());
    for page in 0..PAGES {
        let place = places[page % places.len()];
        let what = || format!("page {page}, bit {place} of chunk {}", page % 4);
        let change = |image: &mut [u8]| scribble::flip(Raw, image, page, page % 4, place);
        let mended = with_page(Raw, &mut image, page, change, |image| counted(Raw, image, &PATHS, what));
        assert_eq!(mended, usize::from(needed.contains(&page)), "{}", what());
    }
    assert_eq!(counted(Raw, &image, &PATHS, || "every page put back".into()), 0);
}

/// Every kind of bit in every chunk of every needed page, and of a file's pages where it is read.
#[test]
fn every_kind_of_bit() {
    let mut image = card(Raw);
    let path = b"/d/f";
    let (checked, of_file) = (needed_pages(&image), needed::by_read(Raw, &image, path, 0, 700));
    let mut lookups = Lookups::new(Raw);
    for &page in checked.iter().chain(&of_file) {
        for (chunk, place) in (0..4).flat_map(|chunk| places().into_iter().map(move |place| (chunk, place))) {
            let what = || format!("page {page}, bit {place} of chunk {chunk}");
            scribble::flip(Raw, &mut image, page, chunk, place);
            let by_check = same(Raw, &image, "one flip").expect("it is corrected").mended;
            assert_eq!(by_check, usize::from(checked.contains(&page)), "{}", what());
            if of_file.contains(&page) {
                let answer = lookups.read_mended(&image, path, 511, 2, what).0;
                assert_eq!(answer, Ok(Answer { value: 2, mended: 1 }), "{}", what());
            }
            scribble::flip(Raw, &mut image, page, chunk, place);
        }
    }
}

/// Chunks are counted, not pages: every set of the four in every needed page, then some in one page after the other,
/// and then all of all pages.
#[test]
fn every_set_of_chunks() {
    let fresh = card(Raw);
    let mut image = fresh.clone();
    let needed = needed_pages(&image);
    for (page, set) in needed.iter().flat_map(|&page| (0..16).map(move |set| (page, set))) {
        let chunks = || (0..4).filter(|chunk| set >> chunk & 1 == 1);
        let change = |image: &mut [u8]| flip_chunks(image, page, chunks());
        let counts = with_page(Raw, &mut image, page, change, |image| same(Raw, image, "some chunks"));
        assert_eq!(counts.expect("all are corrected").mended, chunks().count(), "page {page}, set {set:04b}");
    }
    let mut expected = 0;
    for (place, &page) in needed.iter().enumerate() {
        flip_chunks(&mut image, page, 0..=place % 4);
        expected += 1 + place % 4;
        assert_eq!(counted(Raw, &image, &PATHS[..2], || format!("{place} pages before")), expected);
    }
    image.copy_from_slice(&fresh);
    flip_everything(&mut image, &mut Rng::new(640));
    assert_eq!(counted(Raw, &image, &PATHS, || "every chunk".into()), 4 * needed.len());
}

/// Bits that reading ignores count nowhere: one more at a time in the needed pages, all of all pages, and these beside
/// bits that count.
#[test]
fn ignored_bits() {
    let mut image = card(Raw);
    let needed = needed_pages(&image);
    for (page, place) in needed.iter().flat_map(|&page| (0..IGNORED_BITS).map(move |place| (page, place))) {
        flip_ignored(&mut image, page, place);
        assert_eq!(same(Raw, &image, "an ignored bit").map(|counts| counts.mended), Ok(0), "page {page}, bit {place}");
    }
    for page in (0..PAGES).filter(|page| !needed.contains(page)) {
        (0..IGNORED_BITS).for_each(|place| flip_ignored(&mut image, page, place));
    }
    let mut lookups = Lookups::new(Raw);
    for (expected, pages) in [(0, 0), (4 * needed.len(), 2)] {
        if expected > 0 {
            flip_everything(&mut image, &mut Rng::new(48));
        }
        assert_eq!(counted(Raw, &image, &PATHS, || "all ignored bits".into()), expected);
        let answer = lookups.read_mended(&image, b"/f", 0, 700, String::new).0;
        assert_eq!(answer, Ok(Answer { value: 700, mended: expected + 4 * pages }));
    }
}

/// A card with a file of 2,300 bytes in clusters apart: its path, and the five pages that hold it.
fn with_long_file() -> (Vec<u8>, &'static [u8], Vec<usize>) {
    let (mut image, path) = (card(Raw), &b"/d/d/long"[..]);
    for path in [&b"/f"[..], b"/d/d/f"] {
        delete(Raw, &mut image, path).expect("it is there");
    }
    create(Raw, &mut image, path, &usual_time(), &Rng::new(2300).bytes(2300)).expect("room");
    let pages = needed::by_read(Raw, &image, path, 0, 2300);
    let steps: Vec<bool> = pages.windows(2).map(|pair| pair[1] == pair[0] + 1).collect();
    assert_eq!(steps, [true, false, true, false], "{pages:?}");
    (image, path, pages)
}

/// A read adds the pages with a byte to copy: offsets and sizes around the borders of pages and the file's end, with a
/// flip in each page, with other numbers of them, and with more where the check looks.
#[test]
fn reads() {
    let (fresh, path, pages) = with_long_file();
    let mut borders: Vec<usize> = (0..=5).flat_map(|page| [512 * page, 512 * page + 1, 512 * page + 511]).collect();
    borders.extend([2299, 2300, 2301, 4000]);
    let mut lookups = Lookups::new(Raw);
    for (flips, base) in [([1, 1, 1, 1, 1], 0), ([3, 0, 4, 2, 1], 0), ([1, 4, 2, 0, 3], 2)] {
        let mut image = fresh.clone();
        pages.iter().zip(flips).for_each(|(&page, flips)| flip_chunks(&mut image, page, 4 - flips..4));
        // The page behind the file's end, and another file's first.
        let other = needed::by_read(Raw, &image, b"/d/f", 0, 1)[0];
        flip_chunks(&mut image, pages[4] + 1, 0..4);
        flip_chunks(&mut image, other, 0..4);
        let checked = needed::by_check(Raw, &image);
        checked.iter().for_each(|&page| flip_chunks(&mut image, page, 0..base));
        let base = base * checked.len();
        assert_eq!(counted(Raw, &image, &[path], || "the long file".into()), base);
        for (&offset, &size) in borders.iter().flat_map(|offset| borders.iter().map(move |size| (offset, size))) {
            let (answer, _) = lookups.read_mended(&image, path, offset, size, || format!("flips {flips:?}"));
            let value = size.min(2300_usize.saturating_sub(offset));
            let read = if value == 0 { 0..0 } else { offset / 512..(offset + value - 1) / 512 + 1 };
            let expected = match offset > 2300 {
                true => Err(Refusal::number(15)),
                false => Ok(Answer { value, mended: base + flips[read].iter().sum::<usize>() }),
            };
            assert_eq!(answer, expected, "{size} from {offset}, flips {flips:?}");
        }
        let one = lookups.read_mended(&image, b"/d/f", 511, 1, String::new).0;
        assert_eq!(one, Ok(Answer { value: 1, mended: base + 4 }));
    }
    lookups.reads.met([0, 15], 100);
}

/// The whole listing, with some chunks of four needed pages corrected and one of the file's, which isn't needed;
/// buffers of any length take its beginning.
#[test]
fn whole_listing() {
    let mut image = bench(Raw);
    make_dir(Raw, &mut image, b"/SAVE", &usual_time()).expect("the bench card has room");
    create(Raw, &mut image, b"/SAVE/A", &usual_time(), &[1; 1500]).expect("the bench card has room");
    for (page, chunks) in [(16, 0..4), (18, 2..4), (20, 1..3), (26, 0..3), (28, 0..1)] {
        flip_chunks(&mut image, page, chunks);
    }
    let expected = "card 56\nfree 24\nreached 6\norphaned 0\nheld 0\nmended 11\nd 3 /SAVE 2000-02-29 12:34:56\nf 1500 /SAVE/A 2000-02-29 12:34:56\n";
    assert_eq!([listing::whole(Raw, &image), reader::list(Raw, &image, 0)], [expected; 2]);
    for room in 0..expected.len() + 3 {
        let (text, length) = listing::list(Raw, &image, 0, room);
        assert_eq!((&text[..], length), (&expected.as_bytes()[..room.min(length)], expected.len()));
    }
}

/// Nothing is ever mended on a plain image: neither on the twin of a card with flips in every chunk, nor where bits of
/// pages differ that nobody judges.
#[test]
fn plain_images() {
    let mut raw = card(Raw);
    flip_everything(&mut raw, &mut Rng::new(512));
    let mut plain = vec![0; PAGES * Plain.page_bytes()];
    assert_eq!(compare::to_plain(&raw, &mut plain), Ok(()));
    assert!(plain == card(Plain));
    assert_eq!(counted(Raw, &raw, &PATHS, || "raw twin".into()), 4 * 47);
    assert_eq!(counted(Plain, &plain, &PATHS, || "plain twin".into()), 0);
    let reads = [(Raw, &raw, 4 * 47 + 8), (Plain, &plain, 0)].map(|(format, image, mended)| {
        let (answer, buffer) = Lookups::new(format).read_mended(image, b"/d/f", 3, 900, String::new);
        assert_eq!(answer, Ok(Answer { value: 697, mended }));
        buffer
    });
    assert!(reads[0] == reads[1]);
    let checked = needed::by_check(Plain, &plain);
    for page in (0..PAGES).filter(|page| !checked.contains(page)) {
        scribble::flip(Plain, &mut plain, page, page % 4, page);
    }
    assert_eq!(counted(Plain, &plain, &PATHS, || "other bits".into()), 0);
    let answer = Lookups::new(Plain).read_mended(&plain, b"/d/f", 0, 700, String::new).0;
    assert_eq!(answer, Ok(Answer { value: 700, mended: 0 }));
}

/// A change repairs nothing but what it writes: of the flips in every chunk of every page, those of rewritten pages are
/// gone, and all others are still counted. A refused one leaves them all.
#[test]
fn changes() {
    let mut cards = [card(Raw), card(Raw)];
    make_dir(Raw, &mut cards[1], b"/e", &usual_time()).expect("the root has a dead slot");
    cards.iter_mut().for_each(|image| flip_everything(image, &mut Rng::new(4)));
    let mut changes = Changes::new(Raw);
    let paths = [&b"/f"[..], b"/d/f", b"/d", b"/new", b"/d/d/new", b"/e", PATHS[4], b"/no/way", b"/"];
    for (before, path) in cards.iter().flat_map(|image| paths.map(|path| (image, path))) {
        for change in [0, 1025].iter().flat_map(|&length| five(path, &usual_time(), &vec![7; length])) {
            let mut image = before.clone();
            let what = || format!("{change:?}");
            let answer = changes.apply(&mut image, &change, what);
            let is_written = |&page: &usize| image[Raw.place(page)] != before[Raw.place(page)];
            assert!(answer.is_ok() || image == *before, "{}", what());
            let left = needed::by_check(Raw, &image).iter().filter(|&page| !is_written(page)).count();
            assert_eq!(counted(Raw, &image, &[b"/", b"/d/d"], what), 4 * left, "{}", what());
        }
    }
    changes.met([0, 8, 9, 10, 11, 13], 4);
    changes.accepted(2);
}
