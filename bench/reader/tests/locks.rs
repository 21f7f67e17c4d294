//! Refusal 16, document 02's request 6: which entries' write bits count, for which changes, and its place in the order.

use reader::build::locks::{alter_mode, card, lock, place, set, set_dots, set_each, Which, LEVELS, REQUESTS};
use reader::build::scribble::flip;
use reader::build::{bench, deep, usual_time};
use reader::time::Time;
use reader::{check, create, delete, find, list, make_dir, page, remove_dir, replace, tree, Change, Format, Refusal};

/// 30 February 2000.
const BAD_TIME: Time = [0, 0, 0, 0, 30, 2, 0xD0, 7];

/// The numbers of create, replace, delete, make and remove at a path, each on its own copy, 0 for acceptance.
fn numbers(format: Format, image: &[u8], path: &[u8], time: Time, clusters: usize) -> [u8; 5] {
    let (path, data) = (path.to_vec(), vec![7; 1024 * clusters]);
    let changes = [
        Change::Create { path: path.clone(), time, data: data.clone() },
        Change::Replace { path: path.clone(), time, data },
        Change::Delete { path: path.clone() },
        Change::MakeDir { path: path.clone(), time },
        Change::RemoveDir { path },
    ];
    changes.map(|change| {
        let mut copy = image.to_vec();
        let answer = change.apply(format, &mut copy);
        assert_eq!(answer.is_err(), copy == image, "a refusal leaves the image, acceptance does not: {change:?}");
        answer.map_or_else(|refusal| refusal.number, |()| 0)
    })
}

/// Every request of the sample in every level, with each of the levels and the entry locked or not.
#[test]
fn requests() {
    for format in Format::BOTH {
        for request in REQUESTS {
            for (at, level) in LEVELS.into_iter().enumerate() {
                for locks in 0..16 {
                    let sample = card(format, request.on_full_card);
                    let mut image = sample.image;
                    let is_locked = |place: usize| locks >> place & 1 == 1;
                    LEVELS.iter().enumerate().filter(|(at, _)| is_locked(*at)).for_each(|(_, level)| {
                        lock(format, &mut image, level);
                    });
                    request.entry(level).filter(|_| is_locked(3)).iter().for_each(|entry| {
                        lock(format, &mut image, entry);
                    });
                    assert_eq!(check(format, &image), Ok(sample.counts));
                    let time = if request.time_is_valid { usual_time() } else { BAD_TIME };
                    let found = numbers(format, &image, &request.path(level), time, request.clusters);
                    assert_eq!(found, request.expected(is_locked(at), is_locked(3)), "{request:?}, {locks:04b}");
                }
            }
        }
    }
}

/// The same by hand, for some of them.
#[test]
fn some_requests_by_hand() {
    for format in Format::BOTH {
        let open = card(format, false).image;
        let at = |image: &[u8], path: &[u8]| numbers(format, image, path, usual_time(), 1);
        let mut image = open.clone();
        lock(format, &mut image, b"/");
        assert_eq!((at(&image, b"/f"), at(&image, b"/v")), ([11, 16, 16, 11, 10], [11, 10, 10, 11, 16]));
        assert_eq!((at(&image, b"/n"), at(&image, b"/A/n")), ([16, 9, 9, 16, 9], [0, 9, 9, 0, 9]));
        let mut image = open.clone();
        lock(format, &mut image, b"/A");
        assert_eq!((at(&image, b"/A/f"), at(&image, b"/A")), ([11, 16, 16, 11, 10], [11, 10, 10, 11, 13]));
        assert_eq!((at(&image, b"/A/B/f"), at(&image, b"/f")), ([11, 0, 0, 11, 10], [11, 0, 0, 11, 10]));
        let mut image = open.clone();
        lock(format, &mut image, b"/v");
        assert_eq!((at(&image, b"/v"), at(&image, b"/v/n")), ([11, 10, 10, 11, 16], [16, 9, 9, 16, 9]));
        let mut image = open;
        lock(format, &mut image, b"/w/x");
        assert_eq!((at(&image, b"/w/x"), at(&image, b"/w")), ([11, 16, 16, 11, 10], [11, 10, 10, 11, 13]));
    }
}

/// The builder's pages on the sample: alloc_offset is 10, `/` begins at cluster 0, `/A` at 7, `/A/v` at 11.
#[test]
fn pages_of_locks() {
    for format in Format::BOTH {
        let image = card(format, false).image;
        for (path, which, page) in [
            (&b"/"[..], Which::Own, 20),
            (b"/", Which::Dot, 20),
            (b"/", Which::Dots, 21),
            (b"/A", Which::Own, 22),
            (b"/f", Which::Own, 23),
            (b"/A", Which::Dot, 34),
            (b"/A", Which::Dots, 35),
            (b"/A/v", Which::Own, 38),
            (b"/A/v", Which::Dot, 42),
            (b"/A/v", Which::Dots, 43),
        ] {
            assert_eq!(place(format, &image, path, which), page);
            let mut locked = image.clone();
            set(format, &mut locked, path, which, false);
            let different = |at: &usize| locked[format.place(*at)] != image[format.place(*at)];
            assert_eq!((0..112).filter(different).collect::<Vec<_>>(), [page]);
            let (before, after) = [&image, &locked].map(|image| page::read_mended(format, image, page).unwrap()).into();
            assert_eq!((after.1, after.0[0], &after.0[1..]), ([false; 4], before.0[0] ^ 2, &before.0[1..]));
            set(format, &mut locked, path, which, true);
            assert!(locked == image);
        }
    }
}

/// Nothing but the two entries counts: everything else on the card is locked, dots too.
#[test]
fn all_else_locked() {
    for format in Format::BOTH {
        for level in LEVELS {
            for request in REQUESTS.iter().filter(|request| request.time_is_valid) {
                let mut image = card(format, request.on_full_card).image;
                let path = request.path(level);
                let around = &path[..path.iter().rposition(|&byte| byte == b'/').unwrap().max(1)];
                set_each(format, &mut image, |other| other == path || other == around);
                set_dots(format, &mut image, || false);
                let found = numbers(format, &image, &path, usual_time(), request.clusters);
                assert_eq!(found, request.open, "{request:?} in {}", level.escape_ascii());
            }
        }
    }
}

/// The dots have the bit, the entries in the parents do not: those are what counts. The root's `..` counts as little.
#[test]
fn dots() {
    for format in Format::BOTH {
        for is_writable in [true, false] {
            let mut image = card(format, false).image;
            set_dots(format, &mut image, || is_writable);
            lock(format, &mut image, b"/A");
            let at = |path: &[u8]| numbers(format, &image, path, usual_time(), 1);
            assert_eq!((at(b"/A/f"), at(b"/A/n")), ([11, 16, 16, 11, 10], [16, 9, 9, 16, 9]));
            assert_eq!((at(b"/f"), at(b"/n")), ([11, 0, 0, 11, 10], [0, 9, 9, 0, 9]));
            assert_eq!((at(b"/A/B/v"), at(b"/A/B/n")), ([11, 10, 10, 11, 0], [0, 9, 9, 0, 9]));
        }
    }
}

/// A lock on any of the seven directories hinders the changes right inside it alone.
#[test]
fn every_depth() {
    let path = |depth: usize| -> Vec<u8> { (1..=depth).flat_map(|depth| format!("/D{depth}").into_bytes()).collect() };
    for format in Format::BOTH {
        for locked in 0..=7 {
            let mut image = deep::sample(format).finish();
            lock(format, &mut image, &if locked == 0 { b"/".to_vec() } else { path(locked) });
            for depth in 0..=7 {
                let expected = if depth == locked { [16, 9, 9, 16, 9] } else { [0, 9, 9, 0, 9] };
                let new = [&path(depth)[..], b"/n"].concat();
                // A new directory at eight names is 8 before all else.
                let eight = |mut numbers: [u8; 5]| {
                    numbers[3] = if depth == 7 { 8 } else { numbers[3] };
                    numbers
                };
                assert_eq!(numbers(format, &image, &new, usual_time(), 1), eight(expected), "{locked} {depth}");
            }
            let deepest = numbers(format, &image, deep::PATH, usual_time(), 1);
            assert_eq!(deepest, if locked == 7 { [11, 16, 16, 8, 10] } else { [11, 0, 0, 8, 10] });
        }
    }
}

/// Every low byte of a mode that is of the right kind, under some high bytes: bit 0x0002 alone decides.
#[test]
fn other_mode_bits() {
    for format in Format::BOTH {
        for mode in (0x8000..=0xFFFF).filter(|mode| [0x80, 0x84, 0xA5, 0xFF].contains(&(mode >> 8))) {
            let is_writable = mode & 2 == 2;
            let (path, open) = match mode & 0x30 {
                0x10 => (&b"/A/f"[..], [11, 0, 0, 11, 10]),
                0x20 => (&b"/A/v"[..], [11, 10, 10, 11, 0]),
                _ => continue,
            };
            let mut image = card(format, false).image;
            let page = place(format, &image, path, Which::Own);
            alter_mode(format, &mut image, page, |_| mode);
            let expected = open.map(|number| if number == 0 && !is_writable { 16 } else { number });
            assert_eq!(numbers(format, &image, path, usual_time(), 1), expected, "{mode:#x}");
        }
    }
}

/// What a change makes is never locked, and what it alters keeps its mode.
#[test]
fn modes_after_changes() {
    let time = usual_time();
    for format in Format::BOTH {
        let mut image = bench(format);
        assert_eq!(make_dir(format, &mut image, b"/D", &time), Ok(()));
        assert_eq!(create(format, &mut image, b"/D/x", &time, b"x"), Ok(()));
        assert_eq!([b"/D".as_slice(), b"/D/x"].map(|path| find(format, &image, path).unwrap().mode), [0x8427, 0x8417]);
        let page = place(format, &image, b"/D/x", Which::Own);
        alter_mode(format, &mut image, page, |_| 0xCFDF);
        assert_eq!(replace(format, &mut image, b"/D/x", &time, b"other"), Ok(()));
        assert_eq!(find(format, &image, b"/D/x").unwrap().mode, 0xCFDF);
        lock(format, &mut image, b"/D/x");
        let sixteen = Err(Refusal::number(16));
        assert_eq!(replace(format, &mut image, b"/D/x", &time, b"more"), sixteen);
        assert_eq!(delete(format, &mut image, b"/D/x"), sixteen);
        set(format, &mut image, b"/D/x", Which::Own, true);
        assert_eq!(delete(format, &mut image, b"/D/x"), Ok(()));
        lock(format, &mut image, b"/D");
        assert_eq!(remove_dir(format, &mut image, b"/D"), sixteen);
        set(format, &mut image, b"/D", Which::Own, true);
        assert_eq!(remove_dir(format, &mut image, b"/D"), Ok(()));
    }
}

/// Looking at a card takes no notice of its locks; only the modes differ.
#[test]
fn reading_is_untouched() {
    for format in Format::BOTH {
        let open = card(format, false).image;
        let mut image = open.clone();
        set_each(format, &mut image, |_| false);
        set_dots(format, &mut image, || false);
        assert_eq!(check(format, &image), check(format, &open));
        assert_eq!(list(format, &image, 0), list(format, &open, 0));
        let (mut items, others) = (tree(format, &image).unwrap(), tree(format, &open).unwrap());
        assert!(items.values().all(|item| item.mode & 2 == 0) && items != others);
        items.values_mut().for_each(|item| item.mode |= 2);
        assert!(items == others);
    }
}

/// The bit counts as read: where the stored one is flipped, its correction decides.
#[test]
fn flipped_bits() {
    let format = Format::Raw;
    for (is_writable, expected) in [(true, [11, 0, 0, 11, 10]), (false, [11, 16, 16, 11, 10])] {
        for (entry, page) in [(&b"/"[..], 20), (b"/f", 23)] {
            let mut image = card(format, false).image;
            set(format, &mut image, entry, Which::Own, is_writable);
            flip(format, &mut image, page, 0, 1);
            assert_eq!(numbers(format, &image, b"/f", usual_time(), 1), expected);
        }
    }
}
