//! Cards refused with 1 to 5, and with 2 before the tree; one for each rule and trap.

use super::good::{sample, wide};
use super::scribble::{break_page, flip};
use super::{bad_entries, bad_lists, deep};
use super::{bench, Assembly, Layout};
use crate::card::{LEAST_CLUSTERS, MOST_CLUSTERS};
use crate::page::{put_half, put_word, Format};
use crate::Refusal;

/// A card the check must refuse, and how.
pub struct BadCard {
    pub name: &'static str,
    pub format: Format,
    pub image: Vec<u8>,
    pub refusal: Refusal,
}

/// Every bad card of a format.
pub fn all(format: Format) -> Vec<BadCard> {
    let mut cards: Vec<BadCard> = [
        lengths,
        superblocks,
        names,
        bad_lists::bad,
        bad_entries::chains,
        bad_entries::entries,
        bad_entries::order,
        deep::bad,
    ]
    .into_iter()
    .flat_map(|cards| cards(format))
    .collect();
    match format {
        Format::Raw => cards.extend(pages()),
        // No page of a plain card is unreadable.
        Format::Plain => cards.retain(|card| card.refusal.number != 2),
    }
    cards
}

/// The sample card with its parts edited.
pub(super) fn edited(format: Format, name: &'static str, number: u8, edit: impl FnOnce(&mut Assembly)) -> BadCard {
    let mut card = sample(format);
    edit(&mut card);
    BadCard { name, format, image: card.finish(), refusal: Refusal::number(number) }
}

/// Breaks pages of a finished card; the given one must be named.
pub(super) fn broken(mut card: BadCard, pages: &[usize], refusal: Refusal) -> BadCard {
    pages.iter().for_each(|&page| break_page(card.format, &mut card.image, page));
    BadCard { refusal, ..card }
}

fn lengths(format: Format) -> Vec<BadCard> {
    let bad = |name, length: usize| {
        let mut image = bench(format);
        image.resize(length, 0xFF);
        BadCard { name, format, image, refusal: Refusal::number(1) }
    };
    let bytes = format.cluster_bytes();
    vec![
        bad("empty image", 0),
        bad("one byte short", 56 * bytes - 1),
        bad("one byte long", 56 * bytes + 1),
        bad("N not a multiple of 8", 52 * bytes),
        bad("N 24, below 32", (LEAST_CLUSTERS - 8) * bytes),
        bad("N 65,544, above 65,536", (MOST_CLUSTERS + 8) * bytes),
        bad("the other format's length", 56 * format.other().cluster_bytes()),
        bad("a page too many", 56 * bytes + format.page_bytes()),
    ]
}

fn superblocks(format: Format) -> Vec<BadCard> {
    let word = |name, at, value: u32| edited(format, name, 4, |card| put_word(&mut card.superblock, at, value));
    let half = |name, at, value: u16| edited(format, name, 4, |card| put_half(&mut card.superblock, at, value));
    let byte = |name, number, at: usize, value: u8| edited(format, name, number, |card| card.superblock[at] = value);
    let pair = |name, at, one: u32, two: u32| {
        edited(format, name, 4, |card| {
            put_word(&mut card.superblock, at, one);
            put_word(&mut card.superblock, at + 4, two);
        })
    };
    vec![
        byte("text begins wrong", 3, 0, b's'),
        byte("text without its last space", 3, 27, 0),
        edited(format, "text before version", 3, |card| card.superblock[..0x28].fill(0)),
        edited(format, "erased superblock", 3, |card| card.superblock.fill(0xFF)),
        byte("version 1.3.0.0", 4, 0x1E, b'3'),
        byte("version ends late", 4, 0x23, b'0'),
        byte("version with junk at its end", 4, 0x27, 1),
        half("page length 1024", 0x28, 1024),
        half("one page in a cluster", 0x2A, 1),
        half("eight pages in a block", 0x2C, 8),
        word("another allowed N", 0x30, 64),
        word("N with a high bit", 0x30, 56 | 1 << 31),
        pair("alloc_end 0", 0x34, 10, 0),
        pair("sum above N", 0x34, 10, 47),
        pair("sum wraps to 24", 0x34, 0xFFFF_FFF8, 32),
        pair("sum wraps to 0", 0x34, 0xFFFF_FFFF, 1),
        pair("sum wraps to 9", 0x34, 10, 0xFFFF_FFFF),
        word("root not at 0", 0x3C, 1),
        pair("backups equal", 0x40, 6, 6),
        pair("backup 1 at N/8", 0x40, 7, 5),
        pair("backup 2 at N/8", 0x40, 6, 7),
        pair("backup 1 inside the clusters", 0x40, 4, 6),
        pair("backup 2 inside the clusters", 0x40, 6, 4),
        pair("backup 1 times 8 wraps", 0x40, 0x2000_0005, 6),
        pair("backup 2 times 8 wraps", 0x40, 6, 0x2000_0005),
        edited(format, "a superblock rule before the indirect name", 4, |card| {
            put_word(&mut card.superblock, 0x3C, 1);
            put_word(&mut card.superblock, 0x50, 0);
        }),
    ]
}

/// The wide card, with two table clusters, edited.
fn wide_card(format: Format, name: &'static str, number: u8, edit: impl FnOnce(&mut Assembly)) -> BadCard {
    let mut card = Assembly::with_root(format, wide());
    edit(&mut card);
    BadCard { name, format, image: card.finish(), refusal: Refusal::number(number) }
}

/// A card whose alloc_offset leaves no room for two names; its table is never looked at.
fn narrow_card(format: Format, name: &'static str, alloc_offset: usize) -> BadCard {
    let layout = Layout { alloc_offset, indirect: 1, table: vec![1], ..Layout::bench() };
    BadCard { name, format, image: Assembly::with_root(format, layout).finish(), refusal: Refusal::number(5) }
}

fn names(format: Format) -> Vec<BadCard> {
    let indirect = |name, value: u32| edited(format, name, 5, |card| put_word(&mut card.superblock, 0x50, value));
    let table = |name, value: u32| edited(format, name, 5, |card| card.indirect[0] = value);
    let five = Refusal::number(5);
    vec![
        indirect("indirect name 0", 0),
        indirect("indirect name alloc_offset", 10),
        indirect("indirect name beyond the image", 56),
        indirect("indirect name with a high bit", 0x8000_0008),
        indirect("indirect name all ones", 0xFFFF_FFFF),
        broken(indirect("bad indirect name 0, its page unreadable", 0), &[1], five),
        broken(indirect("bad indirect name 10, its pages unreadable", 10), &[20, 21], five),
        table("table name 0", 0),
        table("table name alloc_offset", 10),
        table("table name equal to the indirect name", 8),
        table("table name all ones", 0xFFFF_FFFF),
        table("table name with a high bit", 0x8000_0009),
        broken(table("bad table name, its page unreadable", 10), &[20, 21], five),
        wide_card(format, "two table names equal", 5, |card| card.indirect[1] = 5),
        wide_card(format, "second table name is the indirect's", 5, |card| card.indirect[1] = 7),
        wide_card(format, "second table name erased", 5, |card| card.indirect[1] = 0xFFFF_FFFF),
        broken(
            wide_card(format, "all names before the first table page", 5, |card| card.indirect[1] = 10),
            &[10, 11],
            five,
        ),
        narrow_card(format, "alloc_offset 0", 0),
        narrow_card(format, "alloc_offset 1", 1),
        narrow_card(format, "alloc_offset 2", 2),
        broken(narrow_card(format, "alloc_offset 2, indirect pages first", 2), &[3], Refusal::unreadable(3)),
    ]
}

/// Raw alone: some of the flips are in code bits.
fn pages() -> Vec<BadCard> {
    let format = Format::Raw;
    let unreadable =
        |name, pages: &[usize]| broken(edited(format, name, 2, |_| {}), pages, Refusal::unreadable(pages[0]));
    let two = |name, page, chunk, one, other| {
        let mut card = edited(format, name, 2, |_| {});
        flip(format, &mut card.image, page, chunk, one);
        flip(format, &mut card.image, page, chunk, other);
        BadCard { refusal: Refusal::unreadable(page), ..card }
    };
    let bad_text = edited(format, "page 0 before its text", 2, |card| card.superblock.fill(0));
    let bad_name = edited(format, "indirect pages before their names", 2, |card| card.indirect[0] = 0);
    vec![
        unreadable("page 0", &[0]),
        broken(bad_text, &[0], Refusal::unreadable(0)),
        two("two data bits", 0, 3, 0, 1023),
        two("a data bit and a code bit", 0, 2, 500, 1030),
        two("two code bits of byte 0", 0, 1, 1024, 1028),
        two("two code bits of bytes 1 and 2", 16, 0, 1030, 1037),
        two("the same bit of two bytes", 18, 3, 8, 16),
        unreadable("first indirect page", &[16, 17]),
        unreadable("second indirect page, though one word is used", &[17]),
        broken(bad_name, &[17], Refusal::unreadable(17)),
        unreadable("first table page", &[18, 19]),
        unreadable("second table page, though 30 words are used", &[19]),
        unreadable("table before the tree", &[19, 20]),
        broken(wide_card(format, "table pages in the names' order", 2, |_| {}), &[6, 7, 11], Refusal::unreadable(11)),
        broken(wide_card(format, "second table cluster", 2, |_| {}), &[7, 20], Refusal::unreadable(7)),
    ]
}
