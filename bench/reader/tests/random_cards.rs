//! Seeded random cards of both formats: the check and the tree say what the builder meant.

use reader::build::random::{random, sized, RandomCard};
use reader::build::requests::random_path;
use reader::build::vandal::{too_deep, vandalised};
use reader::card::MOST_CLUSTERS;
use reader::content::{lines, Line};
use reader::paths::{depth, MOST_BYTES, MOST_NAMES};
use reader::rng::Rng;
use reader::{check, find, list, read, step, tree, Format, Piece, Refusal};

/// The pages of files that must be unreadable, on cards as varied as they are meant to be.
fn counts_and_tree(format: Format) -> usize {
    let (mut orphans, mut damaged, mut tables, mut longest, mut tails, mut lists) = (0, 0, 0, 0, 0, 0);
    let mut deepest = [0; MOST_NAMES + 1];
    for seed in 0..400 {
        let card = random(format, seed);
        assert_eq!(check(format, &card.image), Ok(card.counts), "seed {seed}");
        assert!(tree(format, &card.image).unwrap() == card.tree, "seed {seed}");
        let counts = card.counts;
        assert_eq!(counts.free + counts.reached + counts.orphaned + counts.held, card.layout.alloc_end);
        deepest[card.tree.keys().map(|path| depth(path)).max().unwrap()] += 1;
        longest = longest.max(card.tree.keys().map(Vec::len).max().unwrap());
        orphans += counts.orphaned;
        damaged += card
            .tree
            .values()
            .flat_map(|item| &item.pieces)
            .filter(|piece| matches!(piece, Piece::Unreadable { .. }))
            .count();
        tables = tables.max(card.layout.table.len());
        tails += usize::from(card.layout.limit() < card.layout.alloc_end);
        lists += usize::from(card.layout.limit() == card.layout.alloc_end && counts.held > 0);
    }
    println!("{format:?}, cards by the most names of a path: {deepest:?}");
    assert!(deepest.iter().all(|&cards| cards >= 5), "{deepest:?}");
    assert!(orphans > 1000 && tables > 10 && longest == MOST_BYTES, "{orphans} {tables} {longest}");
    assert!(tails >= 3 && lists >= 50, "{tails} cards with a tail, {lists} more with clusters held back");
    damaged
}

#[test]
fn raw_cards() {
    let damaged = counts_and_tree(Format::Raw);
    assert!(damaged > 100, "{damaged}");
}

#[test]
fn plain_cards() {
    assert_eq!(counts_and_tree(Format::Plain), 0);
}

#[test]
fn a_full_sized_card() {
    for (format, seed) in [(Format::Raw, 0), (Format::Raw, 1), (Format::Raw, 2), (Format::Plain, 3)] {
        let card = sized(format, seed, 8192);
        assert_eq!(check(format, &card.image), Ok(card.counts));
        assert!(tree(format, &card.image).unwrap() == card.tree);
    }
}

/// 255 table clusters in no order, half of them named by the indirect cluster's second page.
#[test]
fn the_greatest_cards() {
    for format in Format::BOTH {
        let card = sized(format, 4, MOST_CLUSTERS);
        println!("{format:?}: {:?}, {} paths", card.counts, card.tree.len());
        assert_eq!(card.layout.table.len(), 255);
        assert_eq!(check(format, &card.image), Ok(card.counts));
        assert!(tree(format, &card.image).unwrap() == card.tree);
    }
}

/// A directory 8 below the root is refused at its entry, though all of it is sound.
#[test]
fn directories_too_deep() {
    for format in Format::BOTH {
        let cards: Vec<Vec<u8>> = (0..300).filter_map(|seed| too_deep(format, seed)).collect();
        assert!(cards.len() >= 20, "{}", cards.len());
        assert!(cards.iter().all(|image| check(format, image) == Err(Refusal::number(7))));
    }
}

/// Faults of every kind: whatever the answer, the calls agree on it.
#[test]
fn vandalised_cards() {
    for format in Format::BOTH {
        let mut seen = [0; 8];
        for seed in 0..1500 {
            let image = vandalised(format, seed);
            let answer = check(format, &image);
            assert_eq!(tree(format, &image).err(), answer.err());
            match answer {
                Ok(counts) => {
                    seen[0] += 1;
                    let head = format!("card {}\nfree {}\n", counts.clusters, counts.free);
                    assert!(list(format, &image, 0).starts_with(&head));
                }
                Err(refusal) => {
                    seen[usize::from(refusal.number)] += 1;
                    assert_eq!(list(format, &image, 0), format!("{refusal}\n"));
                    let mut after = image.clone();
                    assert_eq!(reader::delete(format, &mut after, b"/a"), Err(refusal));
                    assert!(after == image);
                }
            }
        }
        println!("{format:?}, accepted and refused with 1 to 7: {seen:?}");
        for (number, &times) in seen.iter().enumerate() {
            match (format, number) {
                (Format::Plain, 2) => assert_eq!(times, 0),
                _ => assert!(times >= 10, "{format:?} {seen:?}"),
            }
        }
    }
}

/// Finding, stepping, reading and listing agree with the tree.
#[test]
fn lookups_agree_with_the_tree() {
    for seed in 0..240 {
        let format = Format::BOTH[seed as usize % 2];
        let card = random(format, seed);
        let mut rng = Rng::new(seed);
        let lines = lines(format, &card.image).unwrap();
        let text = list(format, &card.image, 0);
        assert_eq!(text.lines().count(), 6 + lines.len() - 1);
        for _ in 0..12 {
            let line = rng.pick(&lines);
            assert_eq!(find(format, &card.image, &line.path), Ok(line.entry.clone()));
            if line.item.is_directory {
                let inside = lines
                    .iter()
                    .filter(|other| other.path != b"/" && reader::paths::directory_of(&other.path) == &line.path[..]);
                let mut from = 0;
                for other in inside {
                    let (slot, entry) = step(format, &card.image, &line.path, from).unwrap().unwrap();
                    assert_eq!(entry, other.entry);
                    assert!(slot >= 2 && slot >= from && slot < line.entry.length as usize);
                    from = slot + 1;
                }
                assert_eq!(step(format, &card.image, &line.path, from), Ok(None));
            } else {
                reads_agree(&card, line, &mut rng);
            }
        }
        let strange = random_path(&mut rng, &card.tree, true);
        assert_eq!(find(format, &card.image, &strange).is_ok(), card.tree.contains_key(&strange));
    }
}

fn reads_agree(card: &RandomCard, line: &Line, rng: &mut Rng) {
    let length = line.entry.length as usize;
    let offset = rng.below(length + 2);
    let mut buffer = vec![0x5A; rng.below(3000)];
    let untouched = buffer.clone();
    let answer = read(card.format, &card.image, &line.path, offset, &mut buffer);
    if offset > length {
        assert_eq!(answer, Err(Refusal::number(15)));
        return assert_eq!(buffer, untouched);
    }
    let count = buffer.len().min(length - offset);
    let used = if count == 0 { 0..0 } else { offset / 512..(offset + count - 1) / 512 + 1 };
    let mut bytes = Vec::new();
    for piece in &line.item.pieces[used] {
        match piece {
            Piece::Bytes(part) => bytes.extend_from_slice(part),
            Piece::Unreadable { .. } => {
                let refusal = answer.unwrap_err();
                assert_eq!(refusal.number, 2);
                assert!(reader::page::read(card.format, &card.image, refusal.page.unwrap()).is_none());
                return assert_eq!(buffer, untouched);
            }
        }
    }
    assert_eq!(answer, Ok(count));
    if count > 0 {
        assert_eq!(buffer[..count], bytes[offset % 512..][..count]);
    }
    assert_eq!(buffer[count..], untouched[count..]);
}
