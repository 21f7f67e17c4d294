//! Cards refused for their list of bad blocks: with 4 for what it says, with 5 where a name lies in a block of it.

use super::bad::{broken, BadCard};
use super::listed::wide;
use super::{Assembly, Layout};
use crate::card::NO_BLOCK;
use crate::page::{put_word, Format};
use crate::Refusal;

/// 128 blocks; the indirect cluster is in block 1, the table clusters in blocks 2, 4, 3 and 5, in the order of their
/// names. The root and two clusters more lie in block 5 too.
pub fn scattered() -> Layout {
    Layout {
        clusters: 1024,
        alloc_offset: 45,
        alloc_end: 960,
        indirect: 10,
        table: vec![17, 33, 26, 41],
        backups: [127, 126],
        version: "1.2.0.0",
    }
}

fn card(
    format: Format,
    name: &'static str,
    number: u8,
    layout: Layout,
    list: &[u32],
    edit: fn(&mut Assembly),
) -> BadCard {
    let mut card = Assembly::with_root(format, layout);
    card.list(list);
    edit(&mut card);
    BadCard { name, format, image: card.finish(), refusal: Refusal::number(number) }
}

/// Every card of a format that is refused for its list, or for what comes before it.
pub fn bad(format: Format) -> Vec<BadCard> {
    let four = |name, list: &[u32]| card(format, name, 4, wide(), list, |_| {});
    let five = |name, list: &[u32]| card(format, name, 5, scattered(), list, |_| {});
    let edited = |name, number, list: &[u32], edit| card(format, name, number, scattered(), list, edit);
    let last = |word| [[NO_BLOCK; 31].to_vec(), vec![word]].concat();
    let refused = |number| Refusal::number(number);
    vec![
        four("bad block N/8", &[64]),
        four("bad block N/8 in the last word", &last(64)),
        four("bad block 0", &[0]),
        four("bad block 0 in the last word", &last(0)),
        four("bad block 0 behind good ones", &[2, NO_BLOCK, 63, 0]),
        four("bad block 0xFFFFFFFE", &[0xFFFF_FFFE]),
        four("bad block with a high bit", &[0x8000_0002]),
        four("bad block times 8 wraps", &[0x2000_0002]),
        four("a list of zeros", &[0; 32]),
        edited("the text before the list", 3, &[0, 128], |card| card.superblock[0] = b's'),
        broken(edited("page 0 before its list", 2, &[0], |_| {}), &[0], Refusal::unreadable(0)),
        edited("the list before the indirect name in a bad block", 4, &[1, 128], |_| {}),
        edited("the list before an indirect name out of range", 4, &[128], |card| {
            put_word(&mut card.superblock, 0x50, 0)
        }),
        edited("the list before a table name", 4, &[5, 0], |card| card.indirect[0] = 0),
        broken(edited("the list before the indirect pages", 4, &[0], |_| {}), &[20, 21], refused(4)),
        five("the indirect cluster in a bad block", &[1]),
        broken(five("the indirect cluster in a bad block, its pages unreadable", &[1]), &[20, 21], refused(5)),
        five("the first table cluster in a bad block", &[2]),
        five("the second table cluster in a bad block", &[4]),
        five("the third table cluster in a bad block", &[3]),
        five("the last table cluster in the root's bad block", &[5]),
        five("the last table cluster in a bad block of the last word", &last(5)),
        broken(five("the first table cluster bad and unreadable", &[2]), &[34, 35], refused(5)),
        broken(five("the last table cluster bad and unreadable", &[5]), &[82, 83], refused(5)),
        broken(five("the last table cluster bad, the first unreadable", &[5]), &[34], refused(5)),
        broken(five("a table cluster bad, an indirect page unreadable", &[2]), &[21], Refusal::unreadable(21)),
        edited("a table cluster bad, an earlier name out of range", 5, &[5], |card| card.indirect[0] = 45),
        edited("a table cluster bad, a later name out of range", 5, &[2], |card| card.indirect[3] = 45),
        broken(edited("a bad block without a name", 2, &[6], |_| {}), &[35], Refusal::unreadable(35)),
        edited("a table name moved into a bad block", 5, &[1], |card| {
            put_word(&mut card.superblock, 0x50, 20);
            card.indirect[2] = 15;
        }),
        edited("the names before the tree", 5, &[5], |card| card.table[0] = 0),
    ]
}
