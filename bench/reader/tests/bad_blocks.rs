//! The bad block list of document 02's request 5 in both formats: which words and blocks count, and that a card is
//! filled beside them. What is refused stands with the other trap cards.

mod common;

use common::{room, TWELVE};
use reader::build::bad_lists::scattered;
use reader::build::listed::{fresh_with, wide};
use reader::build::usual_time;
use reader::card::NO_BLOCK;
use reader::page::put_word;
use reader::tree::Checked;
use reader::{check, create, delete, Format, Refusal};

/// Each of the 32 words counts alone, and the words on both sides don't.
#[test]
fn places() {
    for (format, at) in Format::BOTH.into_iter().flat_map(|format| (0xC8..0x158).step_by(4).map(move |at| (format, at)))
    {
        let is_listed = (0xD0..0x150).contains(&at);
        for (block, held) in [(2, 8), (61, 5), (63, 0)] {
            let mut card = fresh_with(format, wide(), &[]);
            put_word(&mut card.superblock, at, block);
            let held = if is_listed { held } else { 0 };
            assert_eq!(room(format, &card.finish()), (479 - held, held), "{at:#x} {block}");
        }
        for block in [0, 64, 0xFFFF_FFFE] {
            let mut card = fresh_with(format, wide(), &[]);
            put_word(&mut card.superblock, at, block);
            let number = check(format, &card.finish()).err().map(|refusal| refusal.number);
            assert_eq!(number, is_listed.then_some(4), "{at:#x} {block}");
        }
    }
}

/// Every block of a card with names in five of them, one after the other.
#[test]
fn every_block() {
    for format in Format::BOTH {
        for block in 0..130 {
            let answer = check(format, &fresh_with(format, scattered(), &[NO_BLOCK, block]).finish());
            match block {
                0 | 128.. => assert_eq!(answer, Err(Refusal::number(4)), "{block}"),
                1..=5 => assert_eq!(answer, Err(Refusal::number(5)), "{block}"),
                // The last allocatable cluster is the fifth of block 125.
                _ => assert_eq!(answer.unwrap().held, [8, 5, 0][block.saturating_sub(124).min(2) as usize], "{block}"),
            }
        }
    }
}

/// The longest file takes every cluster outside the listed blocks but the root's two.
#[test]
fn longest_file() {
    for format in Format::BOTH {
        let mut image = fresh_with(format, wide(), &[61, 3, 2, 30]).finish();
        // The root's growth is index 1, the file begins behind it; indices 3 to 18 are the blocks 2 and 3.
        assert_eq!(create(format, &mut image, b"/A", &usual_time(), &vec![1; 1024 * 449 + 1]), TWELVE);
        assert_eq!(create(format, &mut image, b"/A", &usual_time(), &vec![1; 1024 * 449]), Ok(()));
        assert_eq!(room(format, &image), (0, 29));
        let chain = Checked::of(format, &image).unwrap().root.inside.unwrap().children[0].chain.clone();
        let expected: Vec<usize> = [2].into_iter().chain(19..227).chain(235..475).collect();
        assert_eq!(chain, expected);
        assert_eq!(delete(format, &mut image, b"/A"), Ok(()));
        assert_eq!(room(format, &image), (449, 29));
    }
}
