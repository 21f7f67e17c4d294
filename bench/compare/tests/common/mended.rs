//! The count of corrected chunks on both sides: a card with every kind of page, flips on it, and what each call tells.

use compare::listing;
use reader::build::good::wide;
use reader::build::scribble::{flip, mendable, CODE_BITS, DATA_BITS};
use reader::build::{needed, usual_time, Assembly};
use reader::card::END_MARK;
use reader::page::CHUNKS;
use reader::paths::join;
use reader::rng::Rng;
use reader::tree::DEEPEST;
use reader::Format::{self, Raw};
use reader::{create, delete, make_dir};

use super::lookups::Lookups;
use super::Tally;

/// Pages of the card.
pub const PAGES: usize = 640;
/// Directories and files of the card on several levels; the last file, 8 below the root, is empty.
pub const PATHS: [&[u8]; 5] = [b"/", b"/f", b"/d/d/d", b"/d/d/d/d/d/d/d", b"/d/d/d/d/d/d/d/d"];

/// Two table clusters out of order and an orphan. The root and seven directories, each in the one before, have five
/// slots: the two dots, a file of 700 bytes, a dead slot, and the next directory, in the last one an empty file.
pub fn card(format: Format) -> Vec<u8> {
    let mut card = Assembly::with_root(format, wide());
    card.table[250] = END_MARK;
    let (mut image, time, mut around) = (card.finish(), usual_time(), b"/".to_vec());
    for depth in 0..=DEEPEST {
        let [file, dead, next] = [b"f", b"x", b"d"].map(|name| join(&around, name));
        create(format, &mut image, &file, &time, &[depth as u8; 700]).expect("room");
        create(format, &mut image, &dead, &time, b"").expect("room");
        let last = match depth < DEEPEST {
            true => make_dir(format, &mut image, &next, &time),
            false => create(format, &mut image, &next, &time, b""),
        };
        last.expect("room");
        delete(format, &mut image, &dead).expect("it is there");
        around = next;
    }
    image
}

/// The pages that the check of the card needs: page 0, the indirect cluster 7, the table's 5 and 3, and five slots of
/// each directory.
pub fn needed_pages(image: &[u8]) -> Vec<usize> {
    let pages = needed::by_check(Raw, image);
    assert_eq!((&pages[..7], pages.len()), (&[0, 14, 15, 10, 11, 6, 7][..], 7 + 5 * 8));
    pages
}

/// Single bits of a chunk: data bits at both ends and between, then every code bit that counts.
pub fn places() -> Vec<usize> {
    [0, 7, 500, 1016, 1023].into_iter().chain(DATA_BITS..DATA_BITS + CODE_BITS).collect()
}

/// Flips one bit in each of these chunks of a raw page.
pub fn flip_chunks(image: &mut [u8], page: usize, chunks: impl IntoIterator<Item = usize>) {
    let places = places();
    chunks.into_iter().for_each(|chunk| flip(Raw, image, page, chunk, places[(7 * page + chunk) % places.len()]));
}

/// Flips one bit in every chunk of every page of a raw image whose codes all match.
pub fn flip_everything(image: &mut [u8], rng: &mut Rng) {
    for page in 0..image.len() / Raw.page_bytes() {
        (0..CHUNKS).for_each(|chunk| mendable(Raw, image, page, chunk, rng));
    }
}

/// The count of an accepted card. All calls that need no page but the check's tell the same: the check, the listing,
/// finds at these paths, steps through the directories among them, at their end too, and reads of the files that copy
/// nothing.
pub fn counted(format: Format, image: &[u8], paths: &[&[u8]], what: impl Fn() -> String) -> usize {
    let mended = Tally::default().same(format, image, &what).expect("an accepted card").mended;
    let text = listing::whole(format, image);
    assert!(text == reader::list(format, image, 0), "the {format:?} listings differ, {}", what());
    assert_eq!(text.lines().nth(5), Some(&format!("mended {mended}")[..]), "{}", what());
    let mut lookups = Lookups::new(format);
    for path in paths {
        let found = lookups.find_mended(image, path, &what).expect("it is there");
        let length = found.value.length;
        let others = match found.value.is_directory() {
            true => [0, length - 1, length]
                .map(|slot| lookups.step_mended(image, path, slot, &what).map(|answer| answer.mended)),
            false => [(0, 0), (length / 2, 0), (length, 9)].map(|(offset, size)| {
                lookups.read_mended(image, path, offset as usize, size, &what).0.map(|answer| answer.mended)
            }),
        };
        assert_eq!((found.mended, others), (mended, [Ok(mended); 3]), "{}, {}", path.escape_ascii(), what());
    }
    mended
}
