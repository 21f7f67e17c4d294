//! Find, step and read on cards drawn up by hand: each refusal in its order, the ends of directories and files.

mod common;

use common::lookups::{unread, Lookups};
use compare::cards::bench_sample;
use reader::build::good::sample;
use reader::build::scribble::{break_page, flip};
use reader::build::{bad, good, standard, usual_time};
use reader::content::visit;
use reader::rng::Rng;
use reader::tree::Checked;
use reader::{Format, Refusal};

fn refusal(number: u8) -> Refusal {
    Refusal::number(number)
}

fn here() -> String {
    "sample card".into()
}

/// Whatever stands on the card, a malformed path is 8 for every call.
#[test]
fn malformed_paths() {
    for format in Format::BOTH {
        let image = sample(format).finish();
        let long = [b"/".as_slice(), &[b'F'; 32]].concat();
        let paths: [&[u8]; 25] = [
            b"",
            b"F",
            b"D/D2",
            b" /F",
            b"//",
            b"//F",
            b"/D//D2",
            b"/D/D2//",
            b"/F/",
            b"/D/",
            b"/a/b/c/d/e/f/g/h/i",
            b"/D/D2/D3/deep/5/6/7/8/9",
            b"/D/D2/D3/deep/",
            &long,
            b"/F\0",
            b"/F\x1F",
            b"/F*",
            b"/?",
            b"/F\x7F",
            b"/\x80",
            b"/.",
            b"/..",
            b"/D/.",
            b"/D/..",
            b"/./F",
        ];
        let mut lookups = Lookups::new(format);
        for path in paths {
            lookups.refused(&image, path, refusal(8), here);
        }
        // Each byte as the last one of a name that is absent.
        for byte in 0..=255_u8 {
            let legal = (0x20..=0x7E).contains(&byte) && !b"*?/".contains(&byte);
            lookups.refused(&image, &[b'/', b'_', byte], refusal(if legal { 9 } else { 8 }), here);
        }
        lookups.refused(&image, &[b"/".as_slice(), &[b'F'; 31]].concat(), refusal(9), here);
    }
}

/// Names are looked up from the left: the first absent one is 9, a file before the last 10 at once.
#[test]
fn names_from_the_left() {
    for format in Format::BOTH {
        let image = sample(format).finish();
        let mut lookups = Lookups::new(format);
        let absent: [&[u8]; 9] =
            [b"/no", b"/no/x", b"/D/no/x", b"/D/D2/F/x", b"/d", b"/D ", b"/ D", b"/D/D2/D", b"/D/D2/D3/dee"];
        for path in absent {
            lookups.refused(&image, path, refusal(9), here);
        }
        for path in [&b"/F/x"[..], b"/F/x/y", b"/E/E", b"/F/no/such/way", b"/D/D2/D3/deep/x"] {
            lookups.refused(&image, path, refusal(10), here);
        }
    }
}

#[test]
fn entries() {
    for format in Format::BOTH {
        let image = sample(format).finish();
        let mut lookups = Lookups::new(format);
        for (path, mode, length, first) in [
            (&b"/"[..], 0x8427, 6, 0),
            (b"/D", 0x8427, 3, 3),
            (b"/F", 0x8417, 1500, 5),
            (b"/E", 0x8417, 0, 0xFFFF_FFFF),
            (b"/D/D2/D3/deep", 0x8417, 10, 11),
        ] {
            let entry = lookups.find(&image, path, here).expect("it stands there");
            assert_eq!((entry.mode, entry.length, entry.first_cluster), (mode, length, first));
            assert_eq!((entry.created, entry.modified), (usual_time(), usual_time()));
        }
    }
}

/// Slots 2, 3 and 5 of the root live; a slot at or past the length is the end, also the greatest.
#[test]
fn slots() {
    for format in Format::BOTH {
        let image = sample(format).finish();
        let mut lookups = Lookups::new(format);
        for (slot, expected) in [(0, 2), (1, 2), (2, 2), (3, 3), (4, 5), (5, 5)] {
            let next = lookups.step(&image, b"/", slot, here).expect("the root is a directory");
            assert_eq!(next.map(|(slot, _)| slot), Some(expected), "from slot {slot}");
        }
        for slot in [6, 7, 255, 256, 1 << 16, 1 << 31, u32::MAX - 1, u32::MAX] {
            assert_eq!(lookups.step(&image, b"/", slot, here), Ok(None), "from slot {slot}");
        }
        for path in [&b"/F"[..], b"/E", b"/D/D2/D3/deep"] {
            for slot in [0, 2, u32::MAX] {
                assert_eq!(lookups.step(&image, path, slot, here), Err(refusal(10)));
            }
        }
        assert_eq!(lookups.ends, 8);
    }
}

/// Offsets up to the end are read, one more is 15, for a directory all are 10; an empty buffer makes no difference.
#[test]
fn offsets() {
    for format in Format::BOTH {
        let image = sample(format).finish();
        let mut lookups = Lookups::new(format);
        for (path, length) in [(&b"/F"[..], 1500), (b"/E", 0), (b"/D/D2/D3/deep", 10)] {
            for offset in [0, 1, 9, 10, 11, 511, 512, 513, 1024, 1499, 1500, 1501, 1 << 32, 1 << 63, usize::MAX] {
                for size in [0, 1, 10, 512, 1500, 2000] {
                    let expected = match offset > length {
                        true => Err(refusal(15)),
                        false => Ok(size.min(length - offset)),
                    };
                    assert_eq!(lookups.read(&image, path, offset, size, here).0, expected);
                    assert_eq!(lookups.read(&image, b"/D", offset, size, here).0, Err(refusal(10)));
                }
            }
        }
        assert_eq!(lookups.read(&image, b"/", 0, 100, here).0, Err(refusal(10)));
    }
}

/// Only pages with a byte to copy are needed, and the first unreadable one of them comes last of all refusals.
#[test]
fn damage() {
    let format = Format::Raw;
    let mut image = sample(format).finish();
    // F is 1,500 bytes in clusters 5 and 4: card pages 30, 31, 28; page 29 has none of its bytes.
    for page in [31, 28, 29] {
        break_page(format, &mut image, page);
    }
    flip(format, &mut image, 30, 1, 700);
    let mut lookups = Lookups::new(format);
    let unreadable = |page| Err(Refusal::unreadable(page));
    for (offset, size, expected) in [
        (0, 512, Ok(512)),
        (0, 513, unreadable(31)),
        (511, 1, Ok(1)),
        (511, 2, unreadable(31)),
        (1023, 1, unreadable(31)),
        (1023, 2, unreadable(31)),
        (1024, 1, unreadable(28)),
        (1499, 9, unreadable(28)),
        (1500, 9, Ok(0)),
        (700, 0, Ok(0)),
        (1501, 9, Err(refusal(15))),
    ] {
        assert_eq!(lookups.read(&image, b"/F", offset, size, here).0, expected, "{size} bytes from {offset}");
    }
    lookups.refused(&image, b"/no", refusal(9), here);
}

/// The same flips on a plain card are other bytes of the file, and no page is unreadable.
#[test]
fn flipped_bytes() {
    let format = Format::Plain;
    let mut image = sample(format).finish();
    let mut lookups = Lookups::new(format);
    let (read, before) = lookups.read(&image, b"/F", 0, 1500, here);
    assert_eq!(read, Ok(1500));
    for page in [31, 28, 29] {
        break_page(format, &mut image, page);
    }
    flip(format, &mut image, 30, 1, 700);
    let (read, after) = lookups.read(&image, b"/F", 0, 1500, here);
    assert_eq!(read, Ok(1500));
    // Bit 700 of the first page's chunk 1, bits 8 and 21 of the others that hold a byte of it.
    let mut expected = before;
    for (at, bit) in [(128 + 87, 4), (512 + 1, 0), (512 + 2, 5), (1024 + 1, 0), (1024 + 2, 5)] {
        expected[at] ^= 1 << bit;
    }
    assert!(after == expected);
}

/// What the check refuses, the three calls refuse alike, also where the path is malformed.
#[test]
fn refused_cards() {
    for format in Format::BOTH {
        let mut lookups = Lookups::new(format);
        for card in bad::all(format) {
            for path in [&b"/"[..], b"/F", b"/no/x", b"", b"/D/"] {
                lookups.refused(&card.image, path, card.refusal, || card.name.into());
            }
        }
        for calls in [&lookups.finds, &lookups.steps, &lookups.reads] {
            calls.met((1..=7).filter(|&number| format == Format::Raw || number != 2), 10);
        }
    }
}

/// Every path of the accepted trap cards and of PCSX2's sample: found, stepped through from each slot, read whole.
#[test]
fn every_path() {
    for format in Format::BOTH {
        let mut lookups = Lookups::new(format);
        let cards = good::all(format).into_iter().map(|card| (card.name, card.image));
        for (name, image) in cards.chain([("PCSX2's sample", bench_sample(format))]) {
            let what = || name.into();
            let checked = Checked::of(format, &image).expect("an accepted card");
            visit(&checked.root, b"/", &mut |path, node| {
                assert_eq!(lookups.find(&image, path, what).as_ref(), Ok(&node.entry));
                for slot in 0..node.entry.length.min(20) + 2 {
                    lookups.step(&image, path, slot, what).ok();
                }
                lookups.read(&image, path, 0, node.entry.length as usize + 3, what).0.ok();
            });
        }
        assert!(lookups.ends >= 20 && lookups.reads.seen[0] >= 20, "{lookups:?}");
    }
}

/// A file as long as the card allows, read whole, and in pieces from random places.
#[test]
fn longest_file() {
    for format in Format::BOTH {
        let mut rng = Rng::new(8192);
        let data = rng.bytes(7998 * 1024 - 7);
        let mut image = standard(format);
        reader::create(format, &mut image, b"/LONG", &usual_time(), &data).expect("there is room");
        let mut lookups = Lookups::new(format);
        let what = || "longest file".into();
        let mut piece = |offset: usize, size: usize| {
            let (read, buffer) = lookups.read(&image, b"/LONG", offset, size, what);
            let end = data.len().min(offset + size);
            assert_eq!(read, Ok(end - offset));
            assert!(buffer[..end - offset] == data[offset..end], "{size} bytes from {offset}");
            assert!((end - offset..size).all(|at| buffer[at] == unread(at)), "{size} bytes from {offset}");
        };
        piece(0, data.len());
        piece(0, data.len() + 5000);
        piece(data.len() - 1, 1);
        piece(data.len(), 100);
        for _ in 0..60 {
            piece(rng.below(data.len()), rng.below(20_000));
        }
        let past = lookups.read(&image, b"/LONG", data.len() + 1, 100, what).0;
        assert_eq!(past, Err(refusal(15)));
    }
}

/// Image and path may lie at any address; the image stays as it is, and is answered the same when asked again.
#[test]
fn any_address() {
    for format in Format::BOTH {
        let image = sample(format).finish();
        let answers = |image: &[u8], path: &[u8]| {
            let mut buffer = [7; 900];
            let read = compare::read_mended(format, image, path, 100, &mut buffer);
            (compare::find_mended(format, image, path), compare::step_mended(format, image, path, 3), read, buffer)
        };
        for path in [&b"/"[..], b"/F", b"/D/D2/D3/deep", b"/no", b"/F/x", b""] {
            let expected = answers(&image, path);
            for shift in 1..8 {
                let shifted = [&vec![0xA5; shift][..], &image].concat();
                let shifted_path = [&vec![b'/'; shift][..], path].concat();
                assert!(answers(&shifted[shift..], &shifted_path[shift..]) == expected);
                assert!(shifted[shift..] == image[..]);
            }
            assert!(answers(&image, path) == expected);
        }
    }
}
