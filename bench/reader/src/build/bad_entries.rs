//! Cards refused with 6 and 7, and the order of faults inside the tree.

use super::bad::{broken, edited, BadCard};
use super::{directory, file, Assembly};
use crate::card::{END_MARK, USED};
use crate::entry::Entry;
use crate::page::Format;
use crate::Refusal;

/// The image's page index on the sample card.
const fn at(cluster: usize, second: usize) -> usize {
    2 * (10 + cluster) + second
}

/// Refused with 6: one table word or one entry of the sample is wrong.
pub(super) fn chains(format: Format) -> Vec<BadCard> {
    let word = |name, cluster: usize, value: u32| edited(format, name, 6, |card| card.table[cluster] = value);
    let entry = |name, entry: Entry| edited(format, name, 6, |card| card.put(1, 1, &entry));
    let root = |name, length: u32| edited(format, name, 6, |card| card.put(0, 0, &directory(b".", length, 0)));
    vec![
        word("root's first cluster free", 0, 0x7FFF_FFFF),
        word("root ends early", 0, END_MARK),
        word("root goes on too long", 2, USED | 20),
        word("root links to itself", 0, USED),
        word("root loops back", 1, USED),
        word("link to alloc_end", 0, USED | 30),
        word("link beyond the card", 0, 0xFFFF_FFFE),
        word("link to a free cluster", 0, USED | 20),
        word("a free word 0x7FFFFFFF in a chain", 5, 0x7FFF_FFFF),
        word("a free word with the right low bits", 5, 4),
        word("a file ends early", 5, END_MARK),
        word("a file's last word links on", 4, USED | 20),
        word("a file's last word is free", 4, 0),
        word("a file runs into the root", 5, USED),
        word("a file runs into an earlier directory", 5, USED | 10),
        word("a directory's first cluster free", 3, 6),
        word("a directory ends early", 3, END_MARK),
        word("a directory too long for its length", 6, USED | 20),
        word("a deep file's cluster free", 11, 0x7FFF_FFFF),
        root("root's length asks for more clusters", 7),
        root("root's length asks for fewer clusters", 4),
        root("root's length asks for billions", 0xFFFF_FFFF),
        entry("file too long for its chain", file(b"F", 2049, 5)),
        entry("file too short for its chain", file(b"F", 1024, 5)),
        entry("file of the greatest length", file(b"F", 0xFFFF_FFFF, 5)),
        entry("file begins in the middle of its chain", file(b"F", 1500, 4)),
        entry("file with bytes and no first cluster", file(b"F", 1500, END_MARK)),
        entry("first cluster with the top bit set", file(b"F", 1500, USED | 5)),
        entry("first cluster is alloc_end", file(b"F", 1500, 30)),
        entry("first cluster counted from the card's start", file(b"F", 1500, 15)),
        entry("first cluster is the root's", file(b"F", 3000, 0)),
        entry("two entries share a chain", file(b"F", 10, 11)),
        entry("directory of the greatest length", directory(b"F", 0xFFFF_FFFF, 5)),
        edited(format, "a directory is its own child", 6, |card| card.put(6, 0, &directory(b"D2", 3, 3))),
        edited(format, "a file starts at an orphan that links on", 6, |card| {
            card.put(1, 1, &file(b"F", 1024, 12));
            card.table[12] = USED | 5;
        }),
    ]
}

/// Leaves a page as erasing does.
fn erase(card: &mut Assembly, page: usize) {
    card.image[card.format.place(page)].fill(0xFF);
}

/// A name field without a zero.
fn endless() -> Entry {
    Entry { name_field: [b'x'; 32], ..file(b"F", 1500, 5) }
}

/// Refused with 7: one entry of the sample breaks its rule.
pub(super) fn entries(format: Format) -> Vec<BadCard> {
    let put = |name, cluster, second, entry: Entry| edited(format, name, 7, |card| card.put(cluster, second, &entry));
    let mode = |entry: Entry, mode| Entry { mode, ..entry };
    let slot3 = |name, entry: Entry| edited(format, name, 7, |card| card.put(1, 1, &entry));
    let named = |name, bytes: &[u8]| edited(format, name, 7, |card| card.put(1, 1, &file(bytes, 1500, 5)));
    let dot = || directory(b".", 6, 0);
    let dots = || directory(b"..", 0, 0);
    let erase = |name, cluster, second| edited(format, name, 7, |card| erase(card, at(cluster, second)));
    vec![
        put("root's first entry dead", 0, 0, mode(dot(), 0x0427)),
        put("root's first entry a file too", 0, 0, mode(dot(), 0x8437)),
        put("root's first entry no directory", 0, 0, mode(dot(), 0x8407)),
        put("root's first entry named ..", 0, 0, directory(b"..", 6, 0)),
        put("root's first entry without a name", 0, 0, directory(b"", 6, 0)),
        put("root of length 1", 0, 0, directory(b".", 1, 0)),
        put("root of length 0", 0, 0, directory(b".", 0, 0)),
        erase("root's first page erased", 0, 0),
        put("entry 1 dead", 0, 1, mode(dots(), 0x0427)),
        put("entry 1 a file", 0, 1, mode(dots(), 0x8417)),
        put("entry 1 named .", 0, 1, directory(b".", 0, 0)),
        put("entry 1 named ...", 0, 1, directory(b"...", 0, 0)),
        put("entry 1 with no zero in its name", 0, 1, Entry { name_field: [b'.'; 32], ..dots() }),
        put("entry 0 dead below the root", 3, 0, mode(dots(), 0x0427)),
        put("entry 0 misnamed below the root", 9, 0, dots()),
        put("entry 1 misnamed below the root", 7, 1, directory(b"x", 0, 0)),
        put("entry 1 a file too below the root", 9, 1, mode(dots(), 0x8437)),
        slot3("neither file nor directory", mode(file(b"F", 1500, 5), 0x8407)),
        slot3("both file and directory", mode(file(b"F", 1500, 5), 0x8437)),
        erase("an erased entry", 1, 1),
        named("no name", b""),
        slot3("no zero in the name field", endless()),
        named("byte 0x1F in a name", b"a\x1f"),
        named("byte 0x7F in a name", b"a\x7f"),
        named("byte 0x80 in a name", b"\x80"),
        named("a star in a name", b"a*"),
        named("a slash in a name", b"a/b"),
        named("a question mark in a name", b"?"),
        named("a later entry named .", b"."),
        named("a later entry named ..", b".."),
        named("a name twice", b"D"),
        put("a name twice, the second an empty file", 2, 1, file(b"F", 0, END_MARK)),
        put("an empty file with first cluster 0", 2, 1, file(b"E", 0, 0)),
        put("an empty file with a free first cluster", 2, 1, file(b"E", 0, 20)),
        put("an empty file with first cluster 0x7FFFFFFF", 2, 1, file(b"E", 0, 0x7FFF_FFFF)),
        put("a directory of length 1", 1, 0, directory(b"D", 1, 3)),
        put("a directory of length 0", 1, 0, directory(b"D", 0, 3)),
        put("a directory of length 0 without a cluster", 1, 0, directory(b"D", 0, END_MARK)),
    ]
}

/// Several faults on one card: the first one met decides.
pub(super) fn order(format: Format) -> Vec<BadCard> {
    let two = |name, edit: fn(&mut Assembly), pages: &[usize]| {
        broken(edited(format, name, 2, edit), pages, Refusal::unreadable(pages[0]))
    };
    let other = |name, number, edit: fn(&mut Assembly), pages: &[usize]| {
        broken(edited(format, name, number, edit), pages, Refusal::number(number))
    };
    let bad_slot3 = |card: &mut Assembly| card.put(1, 1, &file(b"*", 1500, 5));
    vec![
        two("root's first page", |_| {}, &[at(0, 0)]),
        two("root's first page before its chain", |card| card.table[0] = 0, &[at(0, 0)]),
        other(
            "root's first entry before its chain",
            7,
            |card| {
                card.table[0] = 0;
                card.put(0, 0, &directory(b"..", 6, 0));
            },
            &[],
        ),
        other(
            "root's length before its chain",
            7,
            |card| {
                card.table[0] = 0;
                card.put(0, 0, &directory(b".", 1, 0));
            },
            &[],
        ),
        other("root's chain before entry 1", 6, |card| card.table[2] = 0, &[at(0, 1)]),
        two("entry 1's page", |_| {}, &[at(0, 1), at(1, 0)]),
        two("an entry's page", bad_slot3, &[at(1, 0)]),
        two("a dead entry's page", |_| {}, &[at(2, 0)]),
        two("the last entry's page", |_| {}, &[at(2, 1)]),
        two("a page deep inside before a later entry", bad_slot3, &[at(10, 0), at(2, 0)]),
        two("a directory's second page before a later entry", bad_slot3, &[at(3, 1)]),
        other("an entry before a later dead page", 7, bad_slot3, &[at(2, 0)]),
        other("a chain before a later page", 6, |card| card.table[5] = END_MARK, &[at(2, 0)]),
        other("a chain before its directory's inside", 6, |card| card.table[3] = END_MARK, &[at(3, 0), at(6, 0)]),
        other(
            "an entry before its chain",
            7,
            |card| {
                card.put(1, 0, &directory(b"D", 1, 3));
                card.table[3] = 0;
            },
            &[at(3, 0)],
        ),
        other("a name twice before its chain", 7, |card| card.put(1, 1, &file(b"D", 10, 3)), &[]),
        other(
            "a deep chain before a later entry",
            6,
            |card| {
                card.table[11] = 0;
                card.put(1, 1, &file(b"*", 1500, 5));
            },
            &[],
        ),
        other(
            "an earlier directory owns a shared cluster",
            6,
            |card| {
                card.put(1, 1, &directory(b"F", 2, 9));
            },
            &[at(2, 0)],
        ),
        other("an erased page is readable", 7, |card| erase(card, at(1, 0)), &[at(3, 0)]),
    ]
}
