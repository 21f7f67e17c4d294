//! The count of corrected chunks, document 02's request 11: which pages count, how often, and in which calls.

use std::collections::BTreeSet;

use reader::build::good::{sample, wide};
use reader::build::random::{listed, random, tight};
use reader::build::scribble::{break_page, flip, flip_ignored, DATA_BITS, IGNORED_BITS};
use reader::build::{bench, needed, usual_time, Assembly};
use reader::page::{self, Mended};
use reader::rng::Rng;
use reader::Format::{Plain, Raw};
use reader::{
    check, create, delete, find, find_mended, list, make_dir, program, read, read_mended, step, step_mended, to_plain,
    tree, Answer, Format, Refusal,
};

/// Pages of the sample that the check needs: superblock, indirect cluster, table; the root's, the fifth of them dead;
/// those of `/D`, `/D/D2` and `/D/D2/D3`, three each.
const NEEDED: [usize; 20] = [0, 16, 17, 18, 19, 20, 21, 22, 23, 24, 25, 26, 27, 32, 34, 35, 36, 38, 39, 40];
/// The pages of `/F`, 1,500 bytes; page 29 ends its last cluster and has none of them.
const FILE: [usize; 3] = [30, 31, 28];

/// Single bits of a chunk: data bits at both ends and between, and code bits of all three bytes.
const PLACES: [usize; 7] = [0, 500, 1023, DATA_BITS, DATA_BITS + 5, DATA_BITS + 6, DATA_BITS + 19];

/// Flips a bit in each of these chunks, no two of the same.
fn flip_chunks(image: &mut [u8], chunks: &[(usize, usize)]) {
    for (number, &(page, chunk)) in chunks.iter().enumerate() {
        flip(Raw, image, page, chunk, PLACES[number % PLACES.len()]);
    }
}

/// What a listing says.
fn listed_count(text: &str) -> usize {
    let mut lines = text.lines().skip_while(|line| !line.starts_with("held "));
    let line = lines.nth(1).expect("a line after that of the held back");
    line.strip_prefix("mended ").expect("the count's line").parse().expect("a number")
}

/// The count of a sample card, on which all calls agree that need what the check needs.
fn count(format: Format, image: &[u8]) -> usize {
    let mended = check(format, image).unwrap().mended;
    let mut buffer = [5; 600];
    assert_eq!(listed_count(&list(format, image, 0)), mended);
    for path in [&b"/"[..], b"/D", b"/F", b"/D/D2/D3/deep"] {
        let value = find(format, image, path).unwrap();
        assert_eq!(find_mended(format, image, path), Ok(Answer { value, mended }));
    }
    for (path, slot) in [(&b"/"[..], 0), (b"/", 4), (b"/", 6), (b"/D/D2", 2), (b"/D/D2", 3)] {
        let value = step(format, image, path, slot).unwrap();
        assert_eq!(step_mended(format, image, path, slot), Ok(Answer { value, mended }));
    }
    // At the end, an empty file, an empty buffer: no page is needed.
    for (path, offset, size) in [(&b"/F"[..], 1500, 600), (b"/E", 0, 600), (b"/F", 0, 0), (b"/F", 700, 0)] {
        let answer = read_mended(format, image, path, offset, &mut buffer[..size]);
        assert_eq!(answer, Ok(Answer { value: 0, mended }));
    }
    assert_eq!(buffer, [5; 600]);
    mended
}

/// Which chunks: each of a chunk's 1,044 bits, and none of the 48 that are ignored.
#[test]
fn chunks_of_a_page() {
    let mut image = bench(Raw);
    let data = page::read(Raw, &image, 20).unwrap();
    let only = |chunk: usize| -> Mended { [0, 1, 2, 3].map(|other| other == chunk) };
    for chunk in 0..4 {
        for place in 0..1044 {
            flip(Raw, &mut image, 20, chunk, place);
            assert_eq!(page::read_mended(Raw, &image, 20), Some((data, only(chunk))), "{chunk} {place}");
            flip(Raw, &mut image, 20, chunk, place);
        }
    }
    for place in 0..IGNORED_BITS {
        flip_ignored(&mut image, 20, place);
        assert_eq!(page::read_mended(Raw, &image, 20), Some((data, [false; 4])), "{place}");
    }
    assert!(image[Raw.place(20)][512..].iter().zip(&bench(Raw)[Raw.place(20)][512..]).all(|(one, other)| one != other));
    // Every set of chunks; the ignored bits are still flipped.
    for set in 0..16 {
        let mended: Mended = [0, 1, 2, 3].map(|chunk| set >> chunk & 1 == 1);
        let mut image = image.clone();
        (0..4).filter(|&chunk| mended[chunk]).for_each(|chunk| flip(Raw, &mut image, 20, chunk, 1043 - 340 * chunk));
        assert_eq!(page::read_mended(Raw, &image, 20), Some((data, mended)));
        if !mended[0] {
            break_page(Raw, &mut image, 20);
            assert_eq!(page::read_mended(Raw, &image, 20), None, "one chunk unreadable, others corrected");
        }
    }
}

/// One bit of one chunk of any page: 1 where the page is needed, 0 everywhere else. Elsewhere are the files' pages, the
/// unused last pages of directories of odd length, free, orphaned and backup pages, and those that nobody names.
#[test]
fn every_page() {
    let fresh = sample(Raw).finish();
    assert_eq!(needed::by_check(Raw, &fresh).len(), NEEDED.len());
    assert_eq!(BTreeSet::from_iter(needed::by_check(Raw, &fresh)), BTreeSet::from(NEEDED));
    for page in 0..112 {
        let expected = usize::from(NEEDED.contains(&page));
        for place in PLACES {
            let mut image = fresh.clone();
            flip(Raw, &mut image, page, (page + place) % 4, place);
            assert_eq!(count(Raw, &image), expected, "page {page}, place {place}");
        }
        let mut image = fresh.clone();
        (0..IGNORED_BITS).for_each(|place| flip_ignored(&mut image, page, place));
        assert_eq!(count(Raw, &image), 0, "page {page}, ignored bits");
        (0..4).for_each(|chunk| flip(Raw, &mut image, page, chunk, 1043 - 261 * chunk));
        assert_eq!(count(Raw, &image), 4 * expected, "page {page}, all chunks");
        if expected == 0 {
            let mut image = fresh.clone();
            break_page(Raw, &mut image, page);
            assert_eq!(count(Raw, &image), 0, "page {page}, unreadable");
        }
    }
}

/// The table in two clusters, out of order: both pages of each count, though the last words are nobody's.
#[test]
fn table_of_two_clusters() {
    let fresh = Assembly::with_root(Raw, wide()).finish();
    for page in 0..640 {
        let mut image = fresh.clone();
        flip_chunks(&mut image, &[(page, 0), (page, 3)]);
        let expected = if [0, 14, 15, 10, 11, 6, 7, 20, 21].contains(&page) { 2 } else { 0 };
        assert_eq!(check(Raw, &image).unwrap().mended, expected, "page {page}");
    }
}

/// Chunks are counted, not pages, and each page once: the root's first one, which is looked at twice, too.
#[test]
fn many_chunks() {
    let mut image = sample(Raw).finish();
    let chunks = |(place, &page)| (0..=place % 4).map(move |chunk| (page, chunk));
    flip_chunks(&mut image, &NEEDED.iter().enumerate().flat_map(chunks).collect::<Vec<_>>());
    assert_eq!(count(Raw, &image), 5 * (1 + 2 + 3 + 4));
    for page in (0..112).filter(|page| !NEEDED.contains(page)) {
        flip_chunks(&mut image, &[(page, 0), (page, 1), (page, 2), (page, 3)]);
    }
    assert_eq!(count(Raw, &image), 50);
}

/// A read adds the corrected chunks of the pages with a byte to copy, also those of chunks without one.
#[test]
fn reads() {
    let mut fresh = sample(Raw);
    FILE.iter().for_each(|&page| fresh.write(page, &[page as u8; 512]));
    let fresh = fresh.finish();
    let mut image = fresh.clone();
    flip_chunks(&mut image, &[(30, 3), (31, 0), (31, 2), (28, 1), (28, 2), (28, 3)]);
    flip_chunks(&mut image, &[(29, 0), (29, 1), (29, 2), (29, 3)]);
    // Offsets and sizes, and which of the three pages they need.
    let reads = [
        ([(0, 1), (0, 512), (511, 1)], 0..1),
        ([(0, 513), (511, 2), (511, 513)], 0..2),
        ([(512, 1), (512, 512), (1023, 1)], 1..2),
        ([(1023, 2), (1023, 4), (512, 513)], 1..3),
        ([(1024, 1), (1499, 1), (1499, 2000)], 2..3),
        ([(0, 1500), (0, 2048), (1, 4000)], 0..3),
        ([(1500, 1), (1500, 0), (1000, 0)], 0..0),
    ];
    for checked in [0, 3] {
        if checked > 0 {
            flip_chunks(&mut image, &[(0, 1), (24, 0), (24, 3)]);
        }
        assert_eq!(count(Raw, &image), checked);
        for (&(offset, size), pages) in reads.iter().flat_map(|(all, pages)| all.iter().map(move |one| (one, pages))) {
            let mended = checked + [1, 2, 3][pages.clone()].iter().sum::<usize>();
            let (mut buffer, mut expected) = ([7; 4000], [7; 4000]);
            let value = read(Raw, &fresh, b"/F", offset, &mut expected[..size]).unwrap();
            let answer = read_mended(Raw, &image, b"/F", offset, &mut buffer[..size]);
            assert_eq!(answer, Ok(Answer { value, mended }), "{size} from {offset}");
            assert_eq!(buffer, expected, "{size} from {offset}");
            assert_eq!(needed::by_read(Raw, &image, b"/F", offset, size), FILE[pages.clone()]);
        }
        assert_eq!(read_mended(Raw, &image, b"/D/D2/D3/deep", 0, &mut [0; 99]).unwrap().mended, checked);
    }
}

/// A refused call tells its number, for 2 the page, and no count.
#[test]
fn refusals() {
    let mut image = sample(Raw).finish();
    NEEDED.iter().for_each(|&page| flip_chunks(&mut image, &[(page, 0), (page, 1)]));
    flip_chunks(&mut image, &[(30, 2), (28, 2)]);
    break_page(Raw, &mut image, 31);
    let mut buffer = [5; 600];
    assert_eq!(count(Raw, &image), 40);
    for (path, number) in [(&b""[..], 8), (b"/no", 9), (b"/F/x", 10)] {
        let refusal = Refusal::number(number);
        assert_eq!(find_mended(Raw, &image, path), Err(refusal));
        assert_eq!(step_mended(Raw, &image, path, 0), Err(refusal));
        assert_eq!(read_mended(Raw, &image, path, 0, &mut buffer), Err(refusal));
    }
    assert_eq!(step_mended(Raw, &image, b"/F", 0), Err(Refusal::number(10)));
    assert_eq!(read_mended(Raw, &image, b"/D", 0, &mut buffer), Err(Refusal::number(10)));
    assert_eq!(read_mended(Raw, &image, b"/F", 1501, &mut buffer), Err(Refusal::number(15)));
    assert_eq!(read_mended(Raw, &image, b"/F", 0, &mut buffer), Err(Refusal::unreadable(31)));
    assert_eq!(buffer, [5; 600]);
    assert_eq!(read_mended(Raw, &image, b"/F", 0, &mut buffer[..512]), Ok(Answer { value: 512, mended: 41 }));

    // A second flip in a chunk of the last page that the check needs.
    flip(Raw, &mut image, 25, 1, 0);
    let refusal = Refusal::unreadable(25);
    assert_eq!(check(Raw, &image), Err(refusal));
    assert_eq!([list(Raw, &image, 0), program(&image)], ["refused 2 25\n"; 2]);
    assert_eq!(find_mended(Raw, &image, b"/F"), Err(refusal));
    assert_eq!(step_mended(Raw, &image, b"/", 0), Err(refusal));
    assert_eq!(read_mended(Raw, &image, b"/F", 0, &mut buffer), Err(refusal));
}

/// Nothing is ever mended on a plain image: neither on the twin of a card with flips, nor where bits differ.
#[test]
fn plain_images() {
    let mut raw = sample(Raw).finish();
    NEEDED.iter().chain(&FILE).for_each(|&page| flip_chunks(&mut raw, &[(page, 0), (page, 3)]));
    let mut plain = vec![0; 56 * 1024];
    to_plain(&raw, &mut plain).unwrap();
    assert!(plain == sample(Plain).finish());
    assert_eq!((count(Raw, &raw), count(Plain, &plain)), (40, 0));
    let (mut in_raw, mut in_plain) = ([0; 1500], [0; 1500]);
    assert_eq!(read_mended(Raw, &raw, b"/F", 0, &mut in_raw), Ok(Answer { value: 1500, mended: 46 }));
    assert_eq!(read_mended(Plain, &plain, b"/F", 0, &mut in_plain), Ok(Answer { value: 1500, mended: 0 }));
    assert_eq!(in_raw, in_plain);
    // Bits of pages that the check needs and that it doesn't judge, and of the file.
    for (page, place) in [(0, 1000), (17, 3), (22, 900), (24, 77), (30, 5)] {
        flip(Plain, &mut plain, page, 2, place);
        assert_eq!(count(Plain, &plain), 0);
        assert_eq!(read_mended(Plain, &plain, b"/F", 0, &mut in_plain), Ok(Answer { value: 1500, mended: 0 }));
    }
}

/// Document 01's listing; then with chunks of four needed pages corrected, and one of the file's, which isn't needed. A
/// change reports none; what it writes has nothing to correct, and all else keeps its flips.
#[test]
fn listing() {
    let text = |free: usize, reached: usize, mended: usize, entries: &str| {
        format!("card 56\nfree {free}\nreached {reached}\norphaned 0\nheld 0\nmended {mended}\n{entries}")
    };
    let mut image = bench(Raw);
    make_dir(Raw, &mut image, b"/SAVE", &usual_time()).unwrap();
    create(Raw, &mut image, b"/SAVE/A", &usual_time(), &[1; 1500]).unwrap();
    let entries = "d 3 /SAVE 2000-02-29 12:34:56\nf 1500 /SAVE/A 2000-02-29 12:34:56\n";
    assert_eq!(program(&image), text(24, 6, 0, entries));
    // The indirect cluster, the table, the root's `.`, the entry of A in cluster 3, and A's first page in cluster 4.
    flip_chunks(&mut image, &[(16, 0), (18, 0), (18, 1), (20, 2), (26, 0), (26, 1), (26, 3), (28, 0)]);
    assert_eq!(program(&image), text(24, 6, 7, entries));
    assert_eq!(delete(Raw, &mut image, b"/SAVE/A"), Ok(()));
    assert_eq!(program(&image), text(26, 4, 2, "d 3 /SAVE 2000-02-29 12:34:56\n"));
}

/// Random cards: what the builder flipped, page by page, is what every call reports.
#[test]
fn random_cards() {
    let (mut mended, mut in_files, mut refused) = (0, 0, 0);
    for seed in 0..300 {
        let card = [random, random, listed, tight][seed as usize % 4](Raw, seed);
        let (image, mut rng) = (&card.image, Rng::new(seed + 11_000_000));
        let flips = |page: &usize| card.flips.get(page).copied().unwrap_or(0);
        let pages = needed::by_check(Raw, image);
        assert_eq!(BTreeSet::from_iter(&pages).len(), pages.len(), "seed {seed}");
        for page in &pages {
            let (_, chunks) = page::read_mended(Raw, image, *page).unwrap();
            assert_eq!(chunks.into_iter().filter(|&chunk| chunk).count(), flips(page), "seed {seed}, page {page}");
        }
        let expected = pages.iter().map(flips).sum();
        assert_eq!(check(Raw, image).unwrap().mended, expected, "seed {seed}");
        assert_eq!(listed_count(&list(Raw, image, 0)), expected, "seed {seed}");
        mended += expected;
        let items: Vec<_> = tree(Raw, image).unwrap().into_iter().collect();
        for _ in 0..12 {
            let (path, item) = rng.pick(&items);
            assert_eq!(find_mended(Raw, image, path).unwrap().mended, expected, "seed {seed}");
            if item.is_directory {
                assert_eq!(step_mended(Raw, image, path, rng.below(6)).unwrap().mended, expected, "seed {seed}");
                continue;
            }
            let length = find(Raw, image, path).unwrap().length as usize;
            let (offset, size) = (rng.below(length + 1), rng.below(3000));
            let pages = needed::by_read(Raw, image, path, offset, size);
            let added: usize = pages.iter().map(flips).sum();
            match read_mended(Raw, image, path, offset, &mut vec![0; size]) {
                Ok(answer) => {
                    let whole = Answer { value: size.min(length - offset), mended: expected + added };
                    assert_eq!(answer, whole, "seed {seed}, {size} from {offset}");
                    in_files += added;
                }
                Err(refusal) => {
                    let first = pages.into_iter().find(|&page| page::read(Raw, image, page).is_none());
                    assert_eq!(refusal, Refusal::unreadable(first.unwrap()), "seed {seed}");
                    refused += 1;
                }
            }
        }
    }
    let seen = format!("corrected by checks {mended}, more by reads {in_files}, reads refused {refused}");
    assert!(mended > 10_000 && in_files > 500 && refused > 50, "{seen}");
}
