//! The five changes on cards drawn up by hand: the numbers of document 01, and each refusal in its order.

mod common;

use common::changes::{five, Changes, BAD_TIME, KINDS};
use compare::{check, create, delete, listing, make_dir, read};
use reader::build::good::sample;
use reader::build::{bad, bench, usual_time};
use reader::time::Time;
use reader::{Change, Counts, Format, Refusal};

fn here() -> String {
    "drawn up by hand".into()
}

fn free(format: Format, image: &[u8]) -> usize {
    check(format, image).expect("an accepted card").free
}

/// A change by library and reader on one image.
fn done(format: Format, image: &mut [u8], change: Change) -> Result<(), u8> {
    Changes::new(format).apply(image, &change, here).map_err(|refusal| refusal.number)
}

fn created(path: &[u8], data: Vec<u8>) -> Change {
    Change::Create { path: path.to_vec(), time: usual_time(), data }
}

fn made(path: &[u8]) -> Change {
    Change::MakeDir { path: path.to_vec(), time: usual_time() }
}

fn deleted(path: &[u8]) -> Change {
    Change::Delete { path: path.to_vec() }
}

#[test]
fn greatest_file() {
    for format in Format::BOTH {
        let (fits, too_long) = (created(b"/A", vec![0xAB; 28_672]), created(b"/A", vec![0xAB; 28_673]));
        let counts = |free, reached| Counts { clusters: 56, free, reached, orphaned: 0, held: 0, mended: 0 };
        let mut image = bench(format);
        assert_eq!(check(format, &image), Ok(counts(29, 1)));
        assert_eq!(done(format, &mut image, too_long.clone()), Err(12));
        assert_eq!(done(format, &mut image, fits.clone()), Ok(()));
        assert_eq!(free(format, &image), 0);
        assert_eq!(done(format, &mut image, deleted(b"/A")), Ok(()));
        assert_eq!(free(format, &image), 28);
        assert_eq!(done(format, &mut image, too_long), Err(12));
        assert_eq!(done(format, &mut image, fits), Ok(()));
        assert_eq!(check(format, &image), Ok(counts(0, 30)));
    }
}

#[test]
fn removal_and_creation_in_both_orders() {
    for format in Format::BOTH {
        let mut start = bench(format);
        done(format, &mut start, created(b"/A", vec![])).expect("room");
        done(format, &mut start, created(b"/C", vec![])).expect("room");
        let frees = [[deleted(b"/A"), created(b"/B", vec![])], [created(b"/B", vec![]), deleted(b"/A")]].map(|order| {
            let mut image = start.clone();
            order.into_iter().for_each(|change| done(format, &mut image, change).expect("accepted"));
            free(format, &image)
        });
        assert_eq!(frees, [28, 27]);
    }
}

/// The four-name case of document 01, at eight names since request 7 of document 02.
#[test]
fn eight_names() {
    let path = b"/a/b/c/d/e/f/g/h";
    for format in Format::BOTH {
        let mut image = bench(format);
        for names in 1..=7 {
            assert_eq!(done(format, &mut image, made(&path[..2 * names])), Ok(()));
        }
        assert_eq!(done(format, &mut image, made(path)), Err(8));
        assert_eq!(done(format, &mut image, created(path, b"deep".to_vec())), Ok(()));
        assert_eq!(done(format, &mut image, made(path)), Err(8));
        let mut buffer = [0; 8];
        assert_eq!(read(format, &image, path, 0, &mut buffer), Ok(4));
        assert_eq!(&buffer, b"deep\0\0\0\0");
        assert_eq!(read(format, &image, path, 4, &mut buffer), Ok(0));
        assert_eq!(read(format, &image, path, 5, &mut buffer), Err(Refusal::number(15)));
    }
}

/// The card of document 01's listing, by the library alone.
#[test]
fn whole_listing() {
    for format in Format::BOTH {
        let time = usual_time();
        let mut image = bench(format);
        make_dir(format, &mut image, b"/SAVE", &time).expect("the bench card has room");
        create(format, &mut image, b"/SAVE/A", &time, &[1; 1500]).expect("the bench card has room");
        let expected = "card 56\nfree 24\nreached 6\norphaned 0\nheld 0\nmended 0\nd 3 /SAVE 2000-02-29 12:34:56\nf 1500 /SAVE/A 2000-02-29 12:34:56\n";
        assert_eq!(listing::whole(format, &image), expected);
        assert_eq!(delete(format, &mut image, b"/SAVE"), Err(Refusal::number(10)));
        assert_eq!(listing::whole(format, &image), expected);
    }
}

/// The numbers of all five changes at a path.
fn numbers(format: Format, image: &[u8], path: &[u8], time: &Time, clusters: usize) -> [u8; 5] {
    Changes::new(format).numbers(image, path, time, clusters, here)
}

/// 17 clusters are free on the sample card: `/D/D2/D3/deep`, `/F`, a dead slot, an empty `/E`.
#[test]
fn refusals_in_order() {
    for format in Format::BOTH {
        let image = sample(format).finish();
        let (good, bad) = (&usual_time(), &BAD_TIME);
        let cases: [(&[u8], &Time, usize, [u8; 5]); 29] = [
            // 8 before 14, and 14 before what stands on the card
            (b"", bad, 18, [8, 8, 8, 8, 8]),
            (b"/", bad, 18, [8, 8, 8, 8, 8]),
            (b"/F/", bad, 18, [8, 8, 8, 8, 8]),
            (b"/no/such/way/x", bad, 18, [14, 14, 9, 14, 9]),
            (b"/F/x/y/z", bad, 18, [14, 14, 10, 14, 10]),
            (b"/D/D2/D3/x", bad, 18, [14, 14, 9, 14, 9]),
            (b"/D/D2/D3/deep", bad, 18, [14, 14, 0, 14, 10]),
            (b"/no/x", bad, 18, [14, 14, 9, 14, 9]),
            (b"/F/x", bad, 18, [14, 14, 10, 14, 10]),
            (b"/F", bad, 18, [14, 14, 0, 14, 10]),
            (b"/D", bad, 18, [14, 14, 10, 14, 13]),
            (b"/new", bad, 18, [14, 14, 9, 14, 9]),
            (b"/new", bad, 1, [14, 14, 9, 14, 9]),
            // 9 and 10 as they are met from the left
            (b"/no/x", good, 18, [9, 9, 9, 9, 9]),
            (b"/D/no/x", good, 18, [9, 9, 9, 9, 9]),
            (b"/D/D2/F/x", good, 18, [9, 9, 9, 9, 9]),
            (b"/F/x", good, 18, [10, 10, 10, 10, 10]),
            (b"/F/x/y", good, 18, [10, 10, 10, 10, 10]),
            (b"/E/E", good, 18, [10, 10, 10, 10, 10]),
            // 10, 11 and 13 before 12
            (b"/F", good, 18, [11, 12, 0, 11, 10]),
            (b"/E", good, 18, [11, 12, 0, 11, 10]),
            (b"/D", good, 18, [11, 10, 10, 11, 13]),
            (b"/D/D2/D3", good, 18, [11, 10, 10, 11, 13]),
            (b"/D/D2/D3/deep", good, 18, [11, 12, 0, 11, 10]),
            // names are compared whole
            (b"/d", good, 18, [12, 9, 9, 0, 9]),
            (b"/F ", good, 18, [12, 9, 9, 0, 9]),
            // the dead slot takes a new entry without growth
            (b"/new", good, 17, [0, 9, 9, 0, 9]),
            (b"/F", good, 17, [11, 0, 0, 11, 10]),
            (b"/D/D2/new", good, 17, [0, 9, 9, 0, 9]),
        ];
        for (path, time, clusters, expected) in cases {
            let found = numbers(format, &image, path, time, clusters);
            assert_eq!(found, expected, "{KINDS:?} {}, {clusters} clusters", path.escape_ascii());
        }
    }
}

/// The same on a card without a free cluster, whose root is full: growth and a new directory need one.
#[test]
fn no_free_cluster() {
    for format in Format::BOTH {
        let mut image = sample(format).finish();
        done(format, &mut image, deleted(b"/D/D2/D3/deep")).expect("it is there");
        done(format, &mut image, created(b"/fill", vec![7; 18 * 1024])).expect("all that is free");
        assert_eq!(free(format, &image), 0);
        let cases: [(&[u8], usize, [u8; 5]); 8] = [
            (b"/new", 0, [12, 9, 9, 12, 9]),
            (b"/D/new", 0, [0, 9, 9, 12, 9]),
            (b"/D/new", 1, [12, 9, 9, 12, 9]),
            (b"/D/D2/D3/new", 0, [0, 9, 9, 12, 9]),
            (b"/fill", 0, [11, 0, 0, 11, 10]),
            (b"/fill", 1, [11, 12, 0, 11, 10]),
            (b"/D/D2", 1, [11, 10, 10, 11, 13]),
            (b"/D/D2/D3", 1, [11, 10, 10, 11, 0]),
        ];
        for (path, clusters, expected) in cases {
            let found = numbers(format, &image, path, &usual_time(), clusters);
            assert_eq!(found, expected, "{KINDS:?} {}, {clusters} clusters", path.escape_ascii());
        }
    }
}

/// Each byte as the last one of a name, and names at and past the greatest length.
#[test]
fn names() {
    for format in Format::BOTH {
        let image = sample(format).finish();
        let time = usual_time();
        for byte in 0..=255_u8 {
            let is_allowed = matches!(byte, 0x20..=0x7E) && !b"*/?".contains(&byte);
            let expected = if is_allowed { [0, 9, 9, 0, 9] } else { [8; 5] };
            assert_eq!(numbers(format, &image, &[b'/', b'n', byte], &time, 1), expected, "byte {byte:#x}");
        }
        for (length, expected) in [(31, [0, 9, 9, 0, 9]), (32, [8; 5]), (33, [8; 5])] {
            let path = [b"/D/".as_slice(), &vec![b'~'; length]].concat();
            assert_eq!(numbers(format, &image, &path, &time, 1), expected, "{length} bytes");
        }
        let malformed: [&[u8]; 14] = [
            b"F",
            b"//",
            b"//F",
            b"/D//x",
            b"/D/",
            b"/.",
            b"/..",
            b"/D/.",
            b"/D/..",
            b"/./F",
            b"/F\0",
            b"/a/b/c/d/e/f/g/h/i",
            b"/D/D2/D3/deep/",
            b"/\xFF",
        ];
        for path in malformed {
            assert_eq!(numbers(format, &image, path, &BAD_TIME, 18), [8; 5], "{}", path.escape_ascii());
        }
    }
}

/// What the check refuses, every change refuses alike, with the image as it was.
#[test]
fn refused_cards() {
    for format in Format::BOTH {
        let mut changes = Changes::new(format);
        let requests = [(&b"/F"[..], usual_time()), (b"/new", usual_time()), (b"/D/D2/D3", BAD_TIME), (b"", BAD_TIME)];
        for card in bad::all(format) {
            // A card of 64 MiB takes its time to copy.
            let count = if card.image.len() < 1 << 24 { 4 } else { 1 };
            for &(path, time) in &requests[..count] {
                for change in five(path, &time, b"bytes") {
                    let mut image = card.image.clone();
                    let answer = changes.apply(&mut image, &change, || card.name.into());
                    assert_eq!(answer, Err(card.refusal), "{}, {}", KINDS[common::changes::kind(&change)], card.name);
                    assert!(image == card.image, "{}", card.name);
                }
            }
        }
        for tally in &changes.tallies {
            tally.met((1..=7).filter(|&number| format == Format::Raw || number != 2), 10);
        }
    }
}
