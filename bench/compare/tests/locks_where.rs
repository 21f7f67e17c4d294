//! Which write bit counts, by library and reader: not those of dots, of directories farther up or of what lies beside,
//! and no other bit of the mode.

mod common;

use common::changes::{Changes, Numbers, KINDS};
use reader::build::locks::{alter_mode, card, lock, place, set, set_each, Which};
use reader::build::scribble::flip;
use reader::build::{deep, usual_time};
use reader::Format;

/// The numbers without and with the lock in question.
type Either = [Numbers; 2];

/// The directory around, the path, and its numbers where that directory is open or locked.
const AROUND: [(&[u8], &[u8], Either); 12] = [
    (b"/", b"/f", [[11, 0, 0, 11, 10], [11, 16, 16, 11, 10]]),
    (b"/", b"/v", [[11, 10, 10, 11, 0], [11, 10, 10, 11, 16]]),
    (b"/", b"/n", [[0, 9, 9, 0, 9], [16, 9, 9, 16, 9]]),
    (b"/A", b"/A/f", [[11, 0, 0, 11, 10], [11, 16, 16, 11, 10]]),
    (b"/A", b"/A/v", [[11, 10, 10, 11, 0], [11, 10, 10, 11, 16]]),
    (b"/A", b"/A/n", [[0, 9, 9, 0, 9], [16, 9, 9, 16, 9]]),
    (b"/A/B", b"/A/B/f", [[11, 0, 0, 11, 10], [11, 16, 16, 11, 10]]),
    (b"/A/B", b"/A/B/v", [[11, 10, 10, 11, 0], [11, 10, 10, 11, 16]]),
    (b"/A/B", b"/A/B/n", [[0, 9, 9, 0, 9], [16, 9, 9, 16, 9]]),
    (b"/w", b"/w/x", [[11, 0, 0, 11, 10], [11, 16, 16, 11, 10]]),
    (b"/A/v", b"/A/v/n", [[0, 9, 9, 0, 9], [16, 9, 9, 16, 9]]),
    (b"/A/B/w", b"/A/B/w/n", [[0, 9, 9, 0, 9], [16, 9, 9, 16, 9]]),
];

/// The dots of the directory around and of the directory at the path, in all four ways, with the one bit that counts
/// set and clear. The root's first dot is that bit, its second is not.
#[test]
fn dots() {
    for format in Format::BOTH {
        let mut changes = Changes::new(format);
        for (around, path, numbers) in AROUND {
            for bits in 0..8 {
                let [dot, dots, is_locked] = [0, 1, 2].map(|place| bits >> place & 1 == 1);
                let mut image = card(format, false).image;
                let removed = path.ends_with(b"v").then_some(path);
                for directory in [Some(around), removed].into_iter().flatten() {
                    if directory != b"/" {
                        set(format, &mut image, directory, Which::Dot, dot);
                    }
                    set(format, &mut image, directory, Which::Dots, dots);
                }
                set(format, &mut image, around, Which::Own, !is_locked);
                let what = || format!("`.` {dot}, `..` {dots}, {} locked {is_locked}", around.escape_ascii());
                let found = changes.numbers(&image, path, &usual_time(), 1, what);
                assert_eq!(found, numbers[usize::from(is_locked)], "{KINDS:?} {}, {}", path.escape_ascii(), what());
            }
        }
        changes.met([0, 16], 80);
    }
}

/// A directory to remove: its own entry in the parent counts, its dots do not.
#[test]
fn dots_of_a_directory_to_remove() {
    for format in Format::BOTH {
        let mut changes = Changes::new(format);
        for (path, bits) in [&b"/v"[..], b"/A/v", b"/A/B/v"].into_iter().flat_map(|path| (0..8).map(move |n| (path, n)))
        {
            let [dot, dots, own] = [0, 1, 2].map(|place| bits >> place & 1 == 1);
            let mut image = card(format, false).image;
            for (which, is_set) in [(Which::Dot, dot), (Which::Dots, dots), (Which::Own, own)] {
                set(format, &mut image, path, which, is_set);
            }
            let expected = [11, 10, 10, 11, if own { 0 } else { 16 }];
            let found = changes.numbers(&image, path, &usual_time(), 1, || format!("bits {bits:03b}"));
            assert_eq!(found, expected, "{KINDS:?} {}, bits {bits:03b}", path.escape_ascii());
        }
    }
}

/// The path of the deep sample's directory so far below the root.
fn directory(depth: usize) -> Vec<u8> {
    match depth {
        0 => b"/".to_vec(),
        _ => deep::PATH[..3 * depth].to_vec(),
    }
}

/// Every set of locked directories from the root to 7 below it: only the one right around the path counts.
#[test]
fn parents_of_parents() {
    for format in Format::BOTH {
        let mut changes = Changes::new(format);
        for locked in 0..256 {
            let is_locked = |depth: usize| locked >> depth & 1 == 1;
            let mut image = deep::sample(format).finish();
            (0..8).filter(|&depth| is_locked(depth)).for_each(|depth| lock(format, &mut image, &directory(depth)));
            let what = || format!("locked {locked:08b}");
            for depth in 0..8 {
                // A directory of eight names is 8 before all else.
                let make = if depth == 7 { 8 } else { 0 };
                let number = |open: u8| if open == 0 && is_locked(depth) { 16 } else { open };
                let path = reader::paths::join(&directory(depth), b"n");
                let found = changes.numbers(&image, &path, &usual_time(), 1, what);
                assert_eq!(found, [number(0), 9, 9, number(make), 9], "{KINDS:?} in depth {depth}, {}", what());
            }
            let deepest = changes.numbers(&image, deep::PATH, &usual_time(), 1, what);
            let expected = if is_locked(7) { [11, 16, 16, 8, 10] } else { [11, 0, 0, 8, 10] };
            assert_eq!(deepest, expected, "{KINDS:?} {}, {}", deep::PATH.escape_ascii(), what());
        }
        changes.met([0, 16], 500);
    }
}

/// One entry after the other locked by itself, or open by itself, on the whole sample.
#[test]
fn one_entry_alone() {
    for format in Format::BOTH {
        let mut changes = Changes::new(format);
        let open = card(format, false).image;
        let items = reader::tree(format, &open).expect("an accepted card");
        for (single, is_writable) in items.keys().flat_map(|path| [(path, true), (path, false)]) {
            let mut image = open.clone();
            set_each(format, &mut image, |path| (path == single) == is_writable);
            for (around, path, numbers) in AROUND {
                let is_locked = |place: &[u8]| (place == single) != is_writable;
                let is_there = items.contains_key(path);
                let hinders = is_locked(around) || is_there && is_locked(path);
                let what = || format!("{} alone, {is_writable}", single.escape_ascii());
                let found = changes.numbers(&image, path, &usual_time(), 1, what);
                assert_eq!(found, numbers[usize::from(hinders)], "{KINDS:?} {}, {}", path.escape_ascii(), what());
            }
        }
        changes.met([0, 16], 300);
    }
}

/// Modes of one kind: every low byte that is of it, under some high ones.
fn modes(kind: u16) -> impl Iterator<Item = u16> {
    let low = (0..0x100_u16).filter(move |low| low & 0x30 == kind);
    low.flat_map(|low| [0x8000, 0x8400, 0x9200, 0xFF00].map(|high| high | low))
}

/// Every mode of the file, of the directory to remove, of the directory around and of the root: bit 0x0002 decides.
#[test]
fn other_bits() {
    for format in Format::BOTH {
        let mut changes = Changes::new(format);
        let cases: [(&[u8], u16, &[u8], Either); 6] = [
            (b"/A/f", 0x10, b"/A/f", AROUND[3].2),
            (b"/A/v", 0x20, b"/A/v", AROUND[4].2),
            (b"/A", 0x20, b"/A/f", AROUND[3].2),
            (b"/A", 0x20, b"/A/n", AROUND[5].2),
            (b"/", 0x20, b"/n", AROUND[2].2),
            (b"/", 0x20, b"/v", AROUND[1].2),
        ];
        for (entry, kind, path, numbers) in cases {
            let open = card(format, false).image;
            let page = place(format, &open, entry, Which::Own);
            for mode in modes(kind) {
                let mut image = open.clone();
                alter_mode(format, &mut image, page, |_| mode);
                let what = || format!("{} has mode {mode:#06x}", entry.escape_ascii());
                let found = changes.numbers(&image, path, &usual_time(), 1, what);
                assert_eq!(found, numbers[usize::from(mode & 2 == 0)], "{KINDS:?} {}, {}", path.escape_ascii(), what());
            }
        }
        changes.met([0, 16], 500);
    }
}

/// The bit as read counts, not the stored one: a flip of it is corrected, whichever way it goes.
#[test]
fn flipped_bits() {
    let format = Format::Raw;
    let mut changes = Changes::new(format);
    for (around, path, numbers) in AROUND {
        for is_locked in [false, true] {
            let mut image = card(format, false).image;
            set(format, &mut image, around, Which::Own, !is_locked);
            let page = place(format, &image, around, Which::Own);
            flip(format, &mut image, page, 0, 1);
            assert_eq!(image[format.place(page)][0] & 2 == 0, !is_locked, "the stored bit says otherwise");
            let what = || format!("{} locked {is_locked}, its bit flipped", around.escape_ascii());
            let found = changes.numbers(&image, path, &usual_time(), 1, what);
            assert_eq!(found, numbers[usize::from(is_locked)], "{KINDS:?} {}, {}", path.escape_ascii(), what());
        }
    }
    changes.met([0, 16], 20);
}

/// A dead entry is nobody's lock: its slot is taken again.
#[test]
fn dead_entries() {
    for format in Format::BOTH {
        let mut changes = Changes::new(format);
        for (path, bit) in [&b"/v"[..], b"/A/v", b"/A/B/f"].into_iter().flat_map(|path| [(path, 0), (path, 2)]) {
            let mut image = card(format, false).image;
            let page = place(format, &image, path, Which::Own);
            alter_mode(format, &mut image, page, |mode| mode & !0x8002 | bit);
            let found = changes.numbers(&image, path, &usual_time(), 1, || format!("dead, bit {bit}"));
            assert_eq!(found, [0, 9, 9, 0, 9], "{KINDS:?} {}, bit {bit}", path.escape_ascii());
        }
    }
}
