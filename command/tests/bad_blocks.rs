//! Cards that list bad blocks: what `check` counts and what it refuses. The numbers here are reckoned by hand.

mod common;

use common::{in_wrapper, Folder, USUAL, USUAL_LISTED};
use ps2card::Card;
use reader::build::listed::fresh_with;
use reader::build::{directory, file, Assembly, Layout};
use reader::Format::Raw;
use reader::{Format, Refusal};

const NONE: u32 = 0xFFFF_FFFF;

/// Indirect cluster, table and root in blocks of their own, 1 to 3. Blocks 4 and 5 have allocatable clusters too, 6 and
/// 7 are the backups.
fn apart() -> Layout {
    Layout { clusters: 64, alloc_offset: 24, alloc_end: 24, table: vec![16], backups: [7, 6], ..Layout::bench() }
}

/// The command and the wrapper tell these counts, with nothing orphaned.
#[track_caller]
fn have(folder: &Folder, format: Format, card: Assembly, [free, reached, held]: [usize; 3]) {
    let (clusters, image) = (card.layout.clusters, card.finish());
    folder.write("card", &image);
    let counts = format!("card {clusters}\nfree {free}\nreached {reached}\norphaned 0\nheld {held}\nmended 0\n");
    assert_eq!(folder.run(&["check", "card"]).text(), format!("card: OK, {free} KB free\n{counts}"));
    assert_eq!(folder.run(&["list", "card"]).text(), counts);
    let told = Card::new(in_wrapper(format), image).check().expect("an accepted card");
    assert_eq!((told.free, told.reached, told.orphaned, told.held), (free, reached, 0, held));
}

/// The bench card: blocks 2, 3 and 4 have allocatable clusters 6 to 13, 14 to 21 and 22 to 29; 5 and 6 are the backups.
#[test]
fn counts_of_the_bench_card() {
    let last = [vec![NONE; 31], vec![3]].concat();
    let between = [vec![NONE, 4, NONE, NONE, 2], vec![NONE; 27]].concat();
    let cards: [(&[u32], [usize; 3]); 12] = [
        (&[], [29, 1, 0]),
        (&[2], [21, 1, 8]),
        (&[3], [21, 1, 8]),
        (&[4], [21, 1, 8]),
        (&[4, 2], [13, 1, 16]),
        (&[2, 3, 4], [5, 1, 24]),
        // The same block twice, and 32 times.
        (&[2, 2], [21, 1, 8]),
        (&[2; 32], [21, 1, 8]),
        // All 32 words count, also those after one that is none.
        (&last, [21, 1, 8]),
        (&between, [13, 1, 16]),
        // A backup block may be listed, and nothing is taken there anyhow.
        (&[5, 6], [29, 1, 0]),
        (&[6, 3], [21, 1, 8]),
    ];
    for format in Format::BOTH {
        let folder = Folder::of(format);
        for (words, counts) in cards {
            for version in ["1.1.0.0", "1.2.0.0"] {
                have(&folder, format, fresh_with(format, Layout { version, ..Layout::bench() }, words), counts);
            }
        }
    }
}

/// A card with chains and an orphan in block 2: only what the table has as free there is held back.
#[test]
fn chains_in_a_bad_block() {
    for format in Format::BOTH {
        let folder = Folder::of(format);
        let mut card = fresh_with(format, Layout::bench(), &[2]);
        card.directory(&[0, 6], 4);
        card.put(6, 0, &file(b"F", 3_000, 5));
        card.put(6, 1, &directory(b"D", 2, 13));
        card.directory(&[13], 2);
        card.chain(&[5, 7, 14]);
        card.chain(&[9]);
        // Table words that are free, whatever their low bits say.
        [(8, 0), (10, 9)].into_iter().for_each(|(cluster, word)| card.table[cluster] = word);
        folder.write("card", &card.finish());
        let counts = "card 56\nfree 19\nreached 6\norphaned 1\nheld 4\nmended 0\n";
        assert_eq!(folder.run(&["check", "card"]).text(), format!("card: OK, 19 KB free\n{counts}"));
        let entries = format!("f 3000 /F {USUAL_LISTED}\nd 2 /D {USUAL_LISTED}\n");
        assert_eq!(folder.run(&["list", "card"]).text(), format!("{counts}{entries}"));
    }
}

/// The standard card, where the tail begins at card cluster 8,041: what is in it and in a bad block counts once, and no
/// cluster of it comes in for a bad one.
#[test]
fn beside_the_tail() {
    let blocks: [(&[u32], [usize; 3]); 7] = [
        (&[6], [7_991, 1, 143]),
        (&[200], [7_991, 1, 143]),
        // Clusters 7,999 to 8,006: one of them is below the tail.
        (&[1005], [7_998, 1, 136]),
        (&[1006], [7_999, 1, 135]),
        (&[1021], [7_999, 1, 135]),
        (&[1021, 1005, 200, 1023], [7_990, 1, 144]),
        (&[1022, 1023], [7_999, 1, 135]),
    ];
    for format in Format::BOTH {
        let folder = Folder::of(format);
        for (words, counts) in blocks {
            have(&folder, format, fresh_with(format, Layout::standard(), words), counts);
        }
        // As many blocks as the list has words.
        let words: Vec<u32> = (6..38).collect();
        have(&folder, format, fresh_with(format, Layout::standard(), &words), [7_743, 1, 391]);
        // The largest card, and its last block before the backups.
        have(&folder, format, fresh_with(format, common::largest(), &[8_189]), [65_247, 1, 8]);
    }
}

/// The card is refused by every kind of command, with these words, and stays.
#[track_caller]
fn refused(folder: &Folder, card: Assembly, line: &str) {
    let image = card.finish();
    folder.write("card", &image);
    folder.write("file", b"bytes");
    let runs: [&[&str]; 7] = [
        &["check", "card"],
        &["verify", "card"],
        &["list", "card"],
        &["find", "card", "/"],
        &["put", "card", "file"],
        &["mkdir", "card", "/A"],
        &["rm", "card", "/A"],
    ];
    for words in runs {
        let given = folder.run(words);
        assert_eq!((given.status, given.out.len(), given.err.as_str()), (1, 0, line), "{words:?}");
    }
    assert!(folder.read("card") == image);
}

const FOUR: &str =
    "refused 4: the card's description of itself (its first page, with its list of bad blocks) is wrong (card)\n";
const FIVE: &str =
    "refused 5: the card's list of allocation table clusters is wrong, or this list or one of them lies \
                    in a block that the card says is bad (card)\n";

/// Block 0 has the superblock; blocks from N/8 on are no card's. Wherever the word stands.
#[test]
fn blocks_that_cannot_be() {
    let last = [vec![NONE; 31], vec![0]].concat();
    let words: [&[u32]; 8] = [&[0], &[7], &[8], &[0xFFFF_FFFE], &[0x8000_0000], &[2, NONE, 7], &[0x2000_0002], &last];
    for format in Format::BOTH {
        let folder = Folder::of(format);
        for words in words {
            for version in ["1.1.0.0", "1.2.0.0"] {
                refused(&folder, fresh_with(format, Layout { version, ..Layout::bench() }, words), FOUR);
            }
        }
        refused(&folder, fresh_with(format, Layout::bench(), &[0; 32]), FOUR);
        refused(&folder, fresh_with(format, Layout::standard(), &[1_024]), FOUR);
        refused(&folder, fresh_with(format, common::largest(), &[8_192]), FOUR);
    }
}

/// A block with the indirect or a table cluster, and one with both.
#[test]
fn blocks_of_the_table() {
    let last = [vec![NONE; 31], vec![2]].concat();
    for format in Format::BOTH {
        let folder = Folder::of(format);
        refused(&folder, fresh_with(format, Layout::bench(), &[1]), FIVE);
        for words in [&[1][..], &[2], &[5, 2], &last] {
            refused(&folder, fresh_with(format, apart(), words), FIVE);
        }
        // The last of the standard card's 32 table clusters, 40, is alone in block 5 with the root; the largest card's
        // last one, 263, is in 32.
        refused(&folder, fresh_with(format, Layout::standard(), &[5]), FIVE);
        refused(&folder, fresh_with(format, common::largest(), &[32]), FIVE);
        // The root's block is none of these.
        have(&folder, format, fresh_with(format, apart(), &[3]), [16, 1, 7]);
        have(&folder, format, fresh_with(format, apart(), &[3, 4, 5, 6, 7]), [0, 1, 23]);
        // 4 comes first, wherever its word stands.
        refused(&folder, fresh_with(format, apart(), &[1, 2, 8]), FOUR);
        // Blocks 1 and 2 where indirect cluster and table are 1 and 2: only the words that name table clusters count.
        let near = Layout { indirect: 1, table: vec![2], ..apart() };
        let mut card = fresh_with(format, near, &[1, 2]);
        card.indirect[1] = 8;
        have(&folder, format, card, [23, 1, 0]);
    }
}

/// Among names and pages: the indirect cluster's name comes before its pages, the table's names after these and before
/// the table's own pages.
#[test]
fn before_and_after_pages() {
    let folder = Folder::new();
    let with = |block: u32, page: usize| {
        let mut image = fresh_with(Raw, apart(), &[block]).finish();
        image[528 * page..][..528].fill(0);
        folder.write("card", &image);
        folder.run(&["check", "card"])
    };
    with(1, 16).refused(Refusal::number(5));
    with(2, 16).refused(Refusal::unreadable(16));
    with(2, 17).refused(Refusal::unreadable(17));
    with(2, 32).refused(Refusal::number(5));
    with(3, 32).refused(Refusal::unreadable(32));
    // Block 8 is beyond this card: 4, and 2 only for page 0.
    with(8, 16).refused(Refusal::number(4));
    with(8, 0).refused(Refusal::unreadable(0));
    // The second table cluster is in the bad block, and a page of the first is unreadable: all names come first.
    let two = Layout { clusters: 312, alloc_end: 257, table: vec![16, 24], backups: [38, 37], ..apart() };
    for (block, refusal) in [(3, Refusal::number(5)), (4, Refusal::unreadable(32))] {
        let mut image = fresh_with(Raw, Layout { alloc_offset: 32, ..two.clone() }, &[block]).finish();
        image[528 * 32..][..528].fill(0);
        folder.write("card", &image);
        folder.run(&["check", "card"]).refused(refusal);
    }
}

/// A fresh card lists none, in either format and of every kind of size.
#[test]
fn fresh_cards_list_none() {
    for format in Format::BOTH {
        let folder = Folder::of(format);
        for clusters in ["32", "56", "8184", "8192", "65536"] {
            folder.run(&["new", clusters, clusters, "--stamp", USUAL]).done();
            assert_eq!(folder.read(clusters)[0xD0..0x150], [0xFF; 128]);
        }
    }
}
