//! Cards that must be accepted although they look wrong, each with its counts.

use super::scribble::{break_page, flip};
use super::{bench, deep, directory, file, listed, standard, Assembly, Layout};
use crate::card::{END_MARK, USED};
use crate::entry::Entry;
use crate::page::{put_word, Format, DATA};
use crate::tree::Counts;

#[derive(Clone, Debug)]
pub struct GoodCard {
    pub name: &'static str,
    pub format: Format,
    pub image: Vec<u8>,
    pub counts: Counts,
}

impl GoodCard {
    /// A card by its counts: N, free, reached, orphaned, held back. Nothing is mended on it.
    pub fn new(name: &'static str, counts: [usize; 5], card: Assembly) -> GoodCard {
        let [clusters, free, reached, orphaned, held] = counts;
        let counts = Counts { clusters, free, reached, orphaned, held, mended: 0 };
        GoodCard { name, format: card.format, image: card.finish(), counts }
    }
}

/// A small tree on the bench layout, the ground for most trap cards:
/// `/D/D2/D3/deep`, `/F` of 1,500 bytes, a dead slot 4 named `F`, an empty `/E`, one orphan.
pub fn sample(format: Format) -> Assembly {
    let mut card = Assembly::new(format, Layout::bench());
    card.directory(&[0, 1, 2], 6);
    card.put(1, 0, &directory(b"D", 3, 3));
    card.put(1, 1, &file(b"F", 1500, 5));
    card.put(2, 0, &Entry { mode: 0x0417, ..file(b"F", 70_000, 0) });
    card.put(2, 1, &file(b"E", 0, END_MARK));
    nest(&mut card, &[3, 6], directory(b"D2", 3, 7));
    nest(&mut card, &[7, 8], directory(b"D3", 3, 9));
    nest(&mut card, &[9, 10], file(b"deep", 10, 11));
    card.chain(&[5, 4]);
    card.chain(&[11]);
    card.table[12] = END_MARK;
    card
}

/// A directory of length 3 with this one entry at slot 2.
fn nest(card: &mut Assembly, chain: &[usize; 2], entry: Entry) {
    card.directory(chain, 0);
    card.put(chain[1], 0, &entry);
}

pub const SAMPLE: Counts = Counts { clusters: 56, free: 17, reached: 12, orphaned: 1, held: 0, mended: 0 };

/// Two table clusters out of order, alloc_end not a multiple of 256.
pub fn wide() -> Layout {
    Layout {
        clusters: 320,
        alloc_offset: 10,
        alloc_end: 290,
        indirect: 7,
        table: vec![5, 3],
        backups: [39, 38],
        version: "1.1.0.0",
    }
}

fn card(format: Format, name: &'static str, counts: Counts, edit: impl FnOnce(&mut Assembly)) -> GoodCard {
    let mut card = sample(format);
    edit(&mut card);
    GoodCard { name, format, image: card.finish(), counts }
}

/// Damage in pages the check doesn't read; on a plain card it is other data.
fn worn(format: Format, name: &'static str, pages: impl IntoIterator<Item = usize>) -> GoodCard {
    let mut image = sample(format).finish();
    pages.into_iter().for_each(|page| break_page(format, &mut image, page));
    GoodCard { name, format, image, counts: SAMPLE }
}

/// Every accepted trap card of a format.
pub fn all(format: Format) -> Vec<GoodCard> {
    let fresh = Counts { clusters: 56, free: 29, reached: 1, orphaned: 0, held: 0, mended: 0 };
    let sample_card = sample(format);
    let page = |cluster, second| sample_card.page(cluster, second);
    let mut cards = vec![
        GoodCard { name: "fresh bench card", format, image: bench(format), counts: fresh },
        GoodCard {
            name: "fresh standard card",
            format,
            image: standard(format),
            counts: Counts { clusters: 8192, free: 7999, reached: 1, orphaned: 0, held: 135, mended: 0 },
        },
        GoodCard {
            name: "two table clusters out of order, version 1.1",
            format,
            image: Assembly::with_root(format, wide()).finish(),
            counts: Counts { clusters: 320, free: 289, reached: 1, orphaned: 0, held: 0, mended: 0 },
        },
        card(format, "the sample itself", SAMPLE, |_| {}),
        card(format, "free words with junk in the low bits", SAMPLE, |card| card.table[20] = 0x0000_0003),
        card(format, "table words from alloc_end on are never judged", SAMPLE, |card| card.table[30..].fill(0)),
        card(format, "words after the last name are never judged", SAMPLE, |card| card.indirect[1..].fill(8)),
        card(format, "other indirect words in the superblock are never judged", SAMPLE, |card| {
            card.superblock[0x54..0xD0].fill(9)
        }),
        card(format, "half at 0x2E, bytes 0x48 to 0x4F, type and flags are never judged", SAMPLE, |card| {
            card.superblock[0x2E..0x30].fill(0x5A);
            card.superblock[0x48..0x50].fill(0x5A);
            card.superblock[0x150..].fill(0x5A);
        }),
        card(format, "an orphan may link anywhere", SAMPLE, |card| card.table[12] = USED),
        card(format, "an orphan may link beyond the card", SAMPLE, |card| card.table[12] = 0xFFFF_FFFE),
        card(format, "the root's own first cluster word is never used", SAMPLE, |card| {
            card.put(0, 0, &directory(b".", 6, 77))
        }),
        card(format, "fields of the two dots aren't judged", SAMPLE, |card| {
            card.put(3, 0, &Entry { mode: 0xFFEF, dir_entry: 99, ..directory(b".", 1, 8000) });
            card.put(3, 1, &Entry { mode: 0x8020, ..directory(b"..", 0xFFFF_FFFF, 3) });
        }),
        card(format, "a dead entry with any content", SAMPLE, |card| {
            let mut data = [0xFF; DATA];
            data[1] = 0x7F;
            card.write(card.page(2, 0), &data);
        }),
        card(format, "bytes after the name's zero", SAMPLE, |card| {
            let mut entry = file(b"F", 1500, 5);
            entry.name_field[2..].copy_from_slice(b"/*?\xFF and no zero to the end...");
            card.put(1, 1, &entry);
            let mut dot = directory(b".", 6, 0);
            dot.name_field[31] = b'x';
            card.put(0, 0, &dot);
        }),
        card(format, "bytes 2 and 3 of an entry", SAMPLE, |card| {
            let mut data = file(b"F", 1500, 5).page();
            put_word(&mut data, 0, 0xFFFF_8417);
            card.write(card.page(1, 1), &data);
        }),
        card(format, "a name of 31 bytes", SAMPLE, |card| card.put(1, 1, &file(&[b'~'; 31], 1500, 5))),
        card(format, "names that differ by case, blanks or length", SAMPLE, |card| {
            card.put(1, 1, &file(b"d", 1500, 5));
            card.put(2, 1, &file(b"D ", 0, END_MARK));
        }),
        card(format, "a name of dots", SAMPLE, |card| card.put(1, 1, &file(b"...", 1500, 5))),
        worn(format, "second page of an odd directory's last cluster", [page(6, 1), page(8, 1), page(10, 1)]),
        worn(format, "data pages of files", [page(5, 0), page(4, 0), page(4, 1), page(11, 0), page(11, 1)]),
        worn(format, "free, orphaned and backup pages", [page(12, 0), page(20, 1), 80, 95, 96, 111]),
        worn(format, "pages nobody names", [1, 2, 3, 15]),
    ];
    if format == Format::Raw {
        let needed = [0, 16, 17, 18, 19, page(0, 0), page(1, 0), page(2, 0), page(10, 0)];
        let mut image = sample_card.finish();
        for (place, page) in needed.into_iter().enumerate() {
            (0..4).for_each(|chunk| flip(format, &mut image, page, chunk, (97 * place + 261 * chunk) % 1044));
        }
        let counts = Counts { mended: 4 * needed.len(), ..SAMPLE };
        cards.push(GoodCard { name: "a flip in every chunk of needed pages", format, image, counts });
    }
    cards.extend(deep::good(format));
    cards.extend(listed::good(format));
    cards
}
