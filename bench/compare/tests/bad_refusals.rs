//! What is refused for the bad block list, by library and reader: 4 for the list itself, 5 where a name lies in a listed
//! block, each in its place among the other faults, and by every call alike.

mod common;

use common::changes::{five, Changes};
use common::lookups::Lookups;
use common::{same, Tally};
use compare::listing;
use reader::build::bad_lists::{bad, scattered};
use reader::build::listed::{fresh_with, wide};
use reader::build::scribble::break_page;
use reader::build::usual_time;
use reader::card::NO_BLOCK;
use reader::page::put_word;
use reader::{Format, Refusal};

const FOUR: Refusal = Refusal::number(4);
const FIVE: Refusal = Refusal::number(5);

/// Every call refuses such a card, and leaves image and outputs as they were.
#[test]
fn every_call() {
    for format in Format::BOTH {
        let mut tally = Tally::default();
        let (mut lookups, mut changes) = (Lookups::new(format), Changes::new(format));
        for card in bad(format).into_iter().filter(|card| format == Format::Raw || card.refusal.number != 2) {
            let what = || card.name.to_string();
            assert_eq!(tally.same(format, &card.image, what), Err(card.refusal), "{}", card.name);
            assert_eq!(listing::whole(format, &card.image), format!("{}\n", card.refusal), "{}", card.name);
            for path in [&b"/"[..], b"/new", b"no path"] {
                lookups.refused(&card.image, path, card.refusal, what);
                for change in five(path, &usual_time(), b"bytes") {
                    let mut image = card.image.clone();
                    assert_eq!(changes.apply(&mut image, &change, what), Err(card.refusal), "{}", card.name);
                    assert!(image == card.image, "{}", card.name);
                }
            }
        }
        tally.met([3], 1);
        tally.met([4, 5], 10);
    }
}

/// Each block alone, in the first word and in the last, on a card with names in blocks 1 to 5.
#[test]
fn every_block() {
    for format in Format::BOTH {
        let strange = [1 << 29, (1 << 29) + 6, 1 << 31, (1 << 31) + 6, 0xFFFF_FFFD, 0xFFFF_FFFE];
        for block in (0..130).chain(strange) {
            for before in [0, 31] {
                let list = [vec![NO_BLOCK; before], vec![block]].concat();
                let answer = same(format, &fresh_with(format, scattered(), &list).finish(), "every block");
                match block {
                    0 | 128.. => assert_eq!(answer, Err(FOUR), "{block:#x}"),
                    1..=5 => assert_eq!(answer, Err(FIVE), "{block}"),
                    // The last allocatable cluster is the fifth of block 125.
                    125 => assert_eq!(answer.map(|counts| (counts.free, counts.held)), Ok((954, 5))),
                    126 | 127 => assert_eq!(answer.map(|counts| (counts.free, counts.held)), Ok((959, 0))),
                    _ => assert_eq!(answer.map(|counts| (counts.free, counts.held)), Ok((951, 8)), "{block}"),
                }
            }
        }
    }
}

/// The listed block of each name, with that cluster's pages unreadable, and with every table page so.
#[test]
fn before_their_pages() {
    let format = Format::Raw;
    let layout = scattered();
    let tables = || layout.table.iter().flat_map(|&cluster| [2 * cluster, 2 * cluster + 1]);
    let indirect = [2 * layout.indirect, 2 * layout.indirect + 1];
    let broken = |block: u32, pages: &[usize]| {
        let mut image = fresh_with(format, layout.clone(), &[90, block]).finish();
        pages.iter().for_each(|&page| break_page(format, &mut image, page));
        same(format, &image, "before their pages")
    };
    for pages in [&indirect[..], &indirect[..1], &indirect[1..]] {
        assert_eq!(broken(1, pages), Err(FIVE));
        // The table's names stand in those pages.
        (2..=6).for_each(|block| assert_eq!(broken(block, pages), Err(Refusal::unreadable(pages[0])), "{block}"));
    }
    for block in 1..=5 {
        assert_eq!(broken(block, &tables().collect::<Vec<_>>()), Err(FIVE), "{block}");
        tables().for_each(|page| assert_eq!(broken(block, &[page]), Err(FIVE), "{block} {page}"));
    }
    // A block without a name: the first of the table's pages, in the names' order.
    assert_eq!(broken(6, &tables().collect::<Vec<_>>()), Err(Refusal::unreadable(34)));
    assert_eq!(broken(6, &[83, 52, 67]), Err(Refusal::unreadable(67)));
}

/// All sets of faults along the check: the first of them decides.
#[test]
fn order() {
    for format in Format::BOTH {
        let mut tally = Tally::default();
        for faults in 0..1 << 8 {
            let has = |fault: u32| faults >> fault & 1 == 1;
            let list = [if has(2) { 128 } else { NO_BLOCK }, if has(3) { 1 } else { 70 }, if has(5) { 5 } else { 71 }];
            let mut card = fresh_with(format, scattered(), &list);
            if has(1) {
                card.superblock[27] = 0;
            }
            if has(7) {
                card.table[0] = !(1 << 31);
            }
            let mut image = card.finish();
            let pages = [(0, 0), (4, 21), (6, 35)];
            pages.iter().filter(|(fault, _)| has(*fault)).for_each(|&(_, page)| break_page(format, &mut image, page));
            let (two, number) = (Refusal::unreadable, Refusal::number);
            let order = [two(0), number(3), FOUR, FIVE, two(21), FIVE, two(35), number(6)];
            // Broken plain pages are other data.
            if format == Format::Plain && (has(0) || has(4) || has(6)) {
                continue;
            }
            let answer = tally.same(format, &image, || format!("faults {faults:#b}"));
            assert_eq!(answer.err(), order.get((faults as u32).trailing_zeros() as usize).copied(), "{faults:#b}");
        }
        tally.met([0, 3, 4, 5, 6], 1);
    }
}

/// A name moved into a listed block and out of it, beside names that break other rules.
#[test]
fn names() {
    for format in Format::BOTH {
        let answer = |list: &[u32], indirect: u32, table: [u32; 4]| {
            let mut card = fresh_with(format, scattered(), list);
            put_word(&mut card.superblock, 0x50, indirect);
            // Words are put where the names say, or near it where they can't be.
            card.layout.indirect = (indirect as usize).clamp(1, 44);
            card.layout.table = table.iter().map(|&name| (name as usize).clamp(1, 44)).collect();
            card.indirect[..4].copy_from_slice(&table);
            same(format, &card.finish(), "names").map(|counts| (counts.free, counts.held))
        };
        // Block 5 holds the root and indices 1 and 2; with its table cluster elsewhere it may be bad.
        assert_eq!(answer(&[5], 10, [17, 33, 26, 39]), Ok((957, 2)));
        assert_eq!(answer(&[5], 10, [17, 33, 26, 40]), Err(FIVE));
        assert_eq!(answer(&[5], 10, [17, 33, 26, 44]), Err(FIVE));
        assert_eq!(answer(&[5], 44, [17, 33, 26, 39]), Err(FIVE));
        // The first cluster and the last one of a block, and their neighbours.
        for (name, expected) in [(23, Ok((959, 0))), (24, Err(FIVE)), (31, Err(FIVE)), (32, Ok((959, 0)))] {
            assert_eq!(answer(&[3], name, [17, 33, 20, 41]), expected, "indirect {name}");
            assert_eq!(answer(&[3], 10, [17, 33, name, 41]), expected, "table {name}");
        }
        // Block 0 holds names too, but isn't listed: the table begins right behind the superblock.
        assert_eq!(answer(&[1, 2, 3], 1, [2, 7, 33, 41]), Ok((959, 0)));
        // Names that are wrong otherwise, before and after one in a listed block.
        assert_eq!(answer(&[3], 10, [0, 33, 26, 41]), Err(FIVE));
        assert_eq!(answer(&[3], 10, [17, 33, 26, 45]), Err(FIVE));
        assert_eq!(answer(&[3], 0, [17, 33, 26, 41]), Err(FIVE));
        assert_eq!(answer(&[70], 10, [17, 33, 33, 41]), Err(FIVE));
        assert_eq!(answer(&[0], 0, [0; 4]), Err(FOUR));
    }
}

/// The other rules of number 4 hold beside an accepted list, and a list of one bad word is enough among good ones.
#[test]
fn among_good_words() {
    for (format, at) in Format::BOTH.into_iter().flat_map(|format| (0..32).map(move |at| (format, at))) {
        for (word, expected) in [(NO_BLOCK, None), (63, None), (64, Some(FOUR)), (0, Some(FOUR))] {
            let mut list: Vec<u32> = (20..52).collect();
            list[at] = word;
            let answer = same(format, &fresh_with(format, wide(), &list).finish(), "among good words");
            assert_eq!(answer.err(), expected, "{at} {word}");
            assert_eq!(answer.map_or(248, |counts| counts.held), 248, "31 blocks are bad, {at} {word}");
        }
        let mut card = fresh_with(format, wide(), &[at as u32 + 2]);
        put_word(&mut card.superblock, 0x40, 62);
        assert_eq!(same(format, &card.finish(), "equal backups"), Err(FOUR));
    }
}
