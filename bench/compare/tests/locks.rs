//! Refusal 16 by library and reader: the five changes with the entry, the directory around it and the levels above and
//! below locked or not, and its place among the other refusals.

mod common;

use common::changes::{Changes, Numbers, BAD_TIME, KINDS};
use reader::build::locks::{card, lock, set_dots, set_each, LEVELS, REQUESTS};
use reader::build::scribble::break_page;
use reader::build::{bad, bench, usual_time};
use reader::paths::directory_of;
use reader::tree::Checked;
use reader::{page, Format, Refusal};

/// Every request of the sample in every level, with each of the three levels and the entry itself locked or not. The
/// expected numbers are written by hand beside the sample.
#[test]
fn every_combination() {
    for format in Format::BOTH {
        let mut changes = Changes::new(format);
        for request in REQUESTS {
            for (at, level) in LEVELS.into_iter().enumerate() {
                for locks in 0..16 {
                    let is_locked = |place: usize| locks >> place & 1 == 1;
                    let mut image = card(format, request.on_full_card).image;
                    for (_, level) in LEVELS.iter().enumerate().filter(|(at, _)| is_locked(*at)) {
                        lock(format, &mut image, level);
                    }
                    if let Some(entry) = request.entry(level).filter(|_| is_locked(3)) {
                        lock(format, &mut image, &entry);
                    }
                    let what = || format!("{request:?} in {}, locks {locks:04b}", level.escape_ascii());
                    let time = if request.time_is_valid { usual_time() } else { BAD_TIME };
                    let found = changes.numbers(&image, &request.path(level), &time, request.clusters, what);
                    assert_eq!(found, request.expected(is_locked(at), is_locked(3)), "{KINDS:?}, {}", what());
                }
            }
        }
        changes.met([0, 8, 9, 10, 11, 12, 13, 14, 16], 40);
        changes.tallies.iter().for_each(|tally| tally.met([0, 16], 30));
    }
}

/// The same by hand, without the table beside the sample.
#[test]
fn by_hand() {
    for format in Format::BOTH {
        let mut changes = Changes::new(format);
        let cases: [(&[u8], &[u8], usize, Numbers); 16] = [
            // the root: its first entry counts for what is right inside it
            (b"/", b"/f", 1, [11, 16, 16, 11, 10]),
            (b"/", b"/n", 99, [16, 9, 9, 16, 9]),
            (b"/", b"/v", 1, [11, 10, 10, 11, 16]),
            (b"/", b"/w", 1, [11, 10, 10, 11, 13]),
            (b"/", b"/A/f", 1, [11, 0, 0, 11, 10]),
            (b"/", b"/A/n", 99, [12, 9, 9, 0, 9]),
            // a directory below it: its entry in the parent
            (b"/A", b"/A/f", 99, [11, 16, 16, 11, 10]),
            (b"/A", b"/A/v", 1, [11, 10, 10, 11, 16]),
            (b"/A", b"/A/n", 1, [16, 9, 9, 16, 9]),
            (b"/A", b"/A", 1, [11, 10, 10, 11, 13]),
            (b"/A", b"/A/B/f", 1, [11, 0, 0, 11, 10]),
            (b"/A", b"/f", 1, [11, 0, 0, 11, 10]),
            // a directory to remove, and a file
            (b"/v", b"/v", 1, [11, 10, 10, 11, 16]),
            (b"/A/f", b"/A/f", 99, [11, 16, 16, 11, 10]),
            (b"/A/f", b"/A/v", 1, [11, 10, 10, 11, 0]),
            // a file locked inside a directory to remove
            (b"/w/x", b"/w", 1, [11, 10, 10, 11, 13]),
        ];
        for (locked, path, clusters, expected) in cases {
            let mut image = card(format, false).image;
            lock(format, &mut image, locked);
            let what = || format!("{} locked", locked.escape_ascii());
            let found = changes.numbers(&image, path, &usual_time(), clusters, what);
            assert_eq!(found, expected, "{KINDS:?} {}, {}", path.escape_ascii(), what());
        }
    }
}

/// The bench card's root has the bit; once it lacks it, nothing can be made.
#[test]
fn bench_card() {
    for format in Format::BOTH {
        let mut changes = Changes::new(format);
        let mut image = bench(format);
        let mut at = |image: &[u8]| changes.numbers(image, b"/A", &usual_time(), 29, || "bench card".into());
        assert_eq!(at(&image), [12, 9, 9, 0, 9]);
        lock(format, &mut image, b"/");
        assert_eq!(at(&image), [16, 9, 9, 16, 9]);
    }
}

/// Everything but the entry and the directory around it is locked, the dots too: that makes no difference.
#[test]
fn all_else_locked() {
    for format in Format::BOTH {
        let mut changes = Changes::new(format);
        for level in LEVELS {
            for request in REQUESTS.iter().filter(|request| request.time_is_valid) {
                let mut image = card(format, request.on_full_card).image;
                let path = request.path(level);
                set_each(format, &mut image, |other| other == path || other == directory_of(&path));
                set_dots(format, &mut image, || false);
                let what = || format!("{request:?} in {}, all else locked", level.escape_ascii());
                let found = changes.numbers(&image, &path, &usual_time(), request.clusters, what);
                assert_eq!(found, request.open, "{KINDS:?}, {}", what());
            }
        }
        assert!(changes.tallies.iter().all(|tally| tally.seen[16] == 0));
        changes.accepted(6);
    }
}

/// Everything is locked: no change is accepted.
#[test]
fn all_locked() {
    for format in Format::BOTH {
        let mut changes = Changes::new(format);
        for (level, request) in LEVELS.into_iter().flat_map(|level| REQUESTS.map(|request| (level, request))) {
            let mut image = card(format, request.on_full_card).image;
            set_each(format, &mut image, |_| false);
            let what = || format!("{request:?} in {}, all locked", level.escape_ascii());
            let time = if request.time_is_valid { usual_time() } else { BAD_TIME };
            let found = changes.numbers(&image, &request.path(level), &time, request.clusters, what);
            assert_eq!(found, request.open.map(|number| if [0, 12].contains(&number) { 16 } else { number }));
        }
        assert!(changes.tallies.iter().all(|tally| tally.seen[0] == 0 && tally.seen[12] == 0));
    }
}

/// What the check refuses comes before a lock: each needed page of a locked card, unreadable in turn, and the bad cards
/// that still have a root to lock.
#[test]
fn refused_cards() {
    let format = Format::Raw;
    let mut changes = Changes::new(format);
    let mut image = card(format, false).image;
    set_each(format, &mut image, |_| false);
    for page in reader::build::needed::by_check(format, &image) {
        let mut image = image.clone();
        break_page(format, &mut image, page);
        for path in [&b"/f"[..], b"/A/n", b"/A/B/v", b"/*"] {
            let what = || format!("page {page} unreadable");
            assert_eq!(changes.numbers(&image, path, &BAD_TIME, 1, what), [2; 5], "{}", what());
        }
    }
    for format in Format::BOTH {
        let mut changes = Changes::new(format);
        for card in bad::all(format).into_iter().filter(|card| card.image.len() < 1 << 20) {
            let mut image = card.image;
            // Most of them are drawn on the bench layout, where the root's first entry is on page 20.
            let Some(mut root) = (image.len() > 21 * 528).then(|| page::read(format, &image, 20)).flatten() else {
                continue;
            };
            root[0] &= !2;
            page::write(format, &mut image, 20, &root);
            let Err(Refusal { number, .. }) = Checked::of(format, &image).map(drop) else { continue };
            let what = || format!("{}, root locked", card.name);
            assert_eq!(number, card.refusal.number, "{}", what());
            assert_eq!(changes.numbers(&image, b"/new", &usual_time(), 1, what), [number; 5], "{}", what());
        }
        changes.met((3..=7).chain([1]), 5);
    }
}
