//! The bad block list by library and reader: which words and clusters it speaks of, and that new clusters step over
//! listed blocks.

mod common;

use common::both::{bytes, Both};
use common::room::all_taken;
use common::same;
use compare::cards::{counts_by_tree, full};
use reader::build::listed::{fresh_with, wide};
use reader::build::tail::crammed;
use reader::build::Layout;
use reader::card::{END_MARK, NO_BLOCK, USED};
use reader::page::{self, put_word};
use reader::{Counts, Format, Refusal};

/// Each of the 32 words counts alone on cards of both versions, whatever the others are; those on both sides don't.
#[test]
fn places() {
    let words = [(2, Ok(8)), (61, Ok(5)), (63, Ok(0)), (NO_BLOCK, Ok(0)), (0, Err(4)), (64, Err(4))];
    let words = words.into_iter().chain([(65, Err(4)), (0xFFFF_FFFE, Err(4)), (0x8000_0002, Err(4))]);
    for (format, version) in Format::BOTH.into_iter().flat_map(|format| ["1.1.0.0", "1.2.0.0"].map(|v| (format, v))) {
        let mut image = fresh_with(format, Layout { version, ..wide() }, &[]).finish();
        let superblock = page::read(format, &image, 0).expect("a page just written");
        for ((block, answer), at) in words.clone().flat_map(|word| (0xC8..0x158).step_by(4).map(move |at| (word, at))) {
            let answer = if (0xD0..0x150).contains(&at) { answer } else { Ok(0) };
            // Alone, and between words that name the first block of clusters, which has two free ones.
            for others in [NO_BLOCK, 1] {
                let mut data = superblock;
                (0xD0..0x150).step_by(4).for_each(|at| put_word(&mut data, at, others));
                put_word(&mut data, at, block);
                page::write(format, &mut image, 0, &data);
                let beside = if others == 1 { 2 } else { 0 };
                let counts =
                    |held| Counts { clusters: 512, free: 479 - held, reached: 1, orphaned: 0, held, mended: 0 };
                let expected = answer.map(|held: usize| counts(held + beside)).map_err(Refusal::number);
                assert_eq!(
                    same(format, &image, "places"),
                    expected,
                    "{format:?} {version} {at:#x} {block:#x} {others}"
                );
            }
        }
    }
}

/// A block is one of the card, not of the table: each offset moves its clusters to other table indices.
#[test]
fn offsets() {
    for (format, offset) in Format::BOTH.into_iter().flat_map(|format| (3..=24).map(move |offset| (format, offset))) {
        let (indirect, table, backups) = (1, vec![2], [7, 6]);
        let layout = Layout { clusters: 64, alloc_offset: offset, alloc_end: 24, indirect, table, backups, ..wide() };
        let indices = |block: usize| (8 * block).saturating_sub(offset)..(8 * (block + 1)).saturating_sub(offset);
        for list in [&[3][..], &[3, 2], &[4, 1]] {
            let is_bad = |index: &usize| list.iter().any(|&block| indices(block as usize).contains(index));
            let (bad, taken): (Vec<usize>, Vec<usize>) = (1..24).partition(is_bad);
            all_taken(format, fresh_with(format, layout.clone(), list), &taken, bad.len());
        }
    }
}

/// A file over all clusters that 32 listed blocks leave, and over those beside a single one.
#[test]
fn longest_files() {
    for format in Format::BOTH {
        let many: Vec<u32> = (2..34).collect();
        let taken: Vec<usize> = [1, 2].into_iter().chain(259..480).collect();
        all_taken(format, fresh_with(format, wide(), &many), &taken, 256);
        let taken: Vec<usize> = (1..227).chain(235..480).collect();
        all_taken(format, fresh_with(format, wide(), &[63, 30, 30]), &taken, 8);
    }
}

/// The last clusters below the tail, with the block bad that lies across the limit, right below it or right above it.
#[test]
fn beside_the_tail() {
    let even = || Layout { alloc_offset: 40, alloc_end: 8136, ..Layout::widest(8192) };
    let cases: [(Layout, &[u32], &[usize], usize); 6] = [
        (Layout::standard(), &[1005], &[7997, 7998], 136),
        (Layout::standard(), &[1004], &[7989, 7990, 7999], 143),
        (Layout::standard(), &[1006, 1003], &[7991, 7999], 143),
        (Layout::widest(8192), &[1004], &[7988, 7997], 144),
        (even(), &[1004], &[7990, 7991], 144),
        (even(), &[1005], &[7998, 7999], 136),
    ];
    for (format, (layout, list, taken, held)) in
        Format::BOTH.into_iter().flat_map(|format| cases.clone().map(|case| (format, case)))
    {
        let mut card = crammed(format, layout, 8000, 0);
        card.list(list);
        // The listed blocks below the limit are free as well.
        let listed: Vec<usize> = (1..8000).filter(|&cluster| !card.is_open(cluster)).collect();
        listed.into_iter().for_each(|cluster| card.table[cluster] = 0);
        taken.iter().for_each(|&cluster| card.table[cluster] = !USED);
        all_taken(format, card, taken, held);
    }
}

/// Blocks 2 and 3 are bad, the table indices 3 to 18, and all free; of the others only these are.
fn with_free(format: Format, free: &[usize]) -> Both {
    let mut card = fresh_with(format, wide(), &[3, NO_BLOCK, 2]);
    (1..480).filter(|cluster| !(3..19).contains(cluster)).for_each(|cluster| card.table[cluster] = END_MARK);
    free.iter().for_each(|&cluster| card.table[cluster] = !USED);
    let both = Both::new(format, card.finish());
    let counts =
        Counts { clusters: 512, free: free.len(), reached: 1, orphaned: 463 - free.len(), held: 16, mended: 0 };
    assert_eq!(both.counts(), counts);
    both
}

/// Every change that takes clusters steps over the listed blocks: growth, a directory, a file, its new bytes.
#[test]
fn steps_over() {
    for format in Format::BOTH {
        let mut both = with_free(format, &[1, 2, 19, 20]);
        assert_eq!((both.create("/A", &bytes(3073)), both.create("/A", &bytes(3072))), (12, 0));
        assert_eq!((both.chain(b"A"), both.counts().free, both.counts().held), (vec![2, 19, 20], 0, 16));

        let mut both = with_free(format, &[2, 19]);
        assert_eq!((both.create("/D", &bytes(1025)), both.make_dir("/D"), both.chain(b"D")), (12, 0, vec![19]));
        // The root's odd slot is there still, but no cluster for a directory, a byte or the growth of `/D`.
        assert_eq!((both.make_dir("/E"), both.create("/E", b"x"), both.create("/D/x", b"")), (12, 12, 12));
        assert_eq!((both.create("/E", b""), both.remove_dir("/D"), both.counts().free), (0, 0, 1));
        assert_eq!((both.create("/F", &bytes(1024)), both.chain(b"F"), both.counts().held), (0, vec![19], 16));

        let mut both = with_free(format, &[2, 19, 20, 25]);
        assert_eq!((both.make_dir("/D"), both.create("/D/x", b""), both.chain(b"D")), (0, 0, vec![19, 20]));
        assert_eq!((both.create("/D/y", b""), both.create("/D/z", b""), both.chain(b"D")), (0, 0, vec![19, 20, 25]));
        assert_eq!((both.counts().free, both.counts().held), (0, 16));

        let mut both = with_free(format, &[2, 19, 20, 21]);
        assert_eq!((both.create("/A", &bytes(9)), both.chain(b"A")), (0, vec![19]));
        assert_eq!((both.replace("/A", &bytes(2049)), both.replace("/A", &bytes(2048))), (12, 0));
        assert_eq!((both.chain(b"A"), both.counts().free), (vec![20, 21], 1));
        assert_eq!((both.replace("/A", b"x"), both.chain(b"A"), both.counts().held), (0, vec![19], 16));
    }
}

/// PCSX2's full card with a list put into it: free blocks are left out, full ones make no difference.
#[test]
fn pcsx2_full_card() {
    for format in Format::BOTH {
        let counts = counts_by_tree("full-small.tree", &Layout::standard());
        let mut image = full(format);
        let listed = |image: &mut [u8], list: &[u32]| {
            let mut data = page::read(format, image, 0).expect("PCSX2 wrote it");
            list.iter().enumerate().for_each(|(place, &word)| put_word(&mut data, 0xD0 + 4 * place, word));
            page::write(format, image, 0, &data);
        };
        assert_eq!(same(format, &image, "the full card"), Ok(counts));
        // All of blocks 6 and 20 is reached, nothing of 990, 1,000 and 1,004; of 1,005 one cluster is below the limit.
        listed(&mut image, &[6, 20, 1000]);
        let less = |held| Counts { free: counts.free - held, held: 135 + held, ..counts };
        assert_eq!(same(format, &image, "three blocks"), Ok(less(8)));
        listed(&mut image, &[1004, 20, 1005, 990]);
        let mut both = Both::new(format, image);
        assert_eq!(both.counts(), less(17));
        let most = 1024 * (less(17).free - 1);
        assert_eq!((both.create("/A", &bytes(most + 1)), both.create("/A", &bytes(most))), (12, 0));
        assert_eq!((both.counts().free, both.counts().held, both.delete("/A")), (0, 152, 0));
    }
}
