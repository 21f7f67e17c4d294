//! Seeded random changes on random cards of both formats, against a model that knows the tree only.

mod common;

use std::collections::{BTreeSet, HashMap};

use common::open_clusters;
use reader::build::random::{listed, random, tight, RandomCard};
use reader::build::requests::random_change;
use reader::content::{Item, Piece, Tree};
use reader::ecc::code_of;
use reader::page::{self, DATA};
use reader::rng::Rng;
use reader::tree::Checked;
use reader::{check, find, paths, step, time, tree, Change, Format, Refusal};

/// Whether a directory has a dead slot, and whether its length is even.
fn room(format: Format, image: &[u8], directory: &[u8]) -> (bool, bool) {
    let length = find(format, image, directory).unwrap().length as usize;
    let mut live = 0;
    let mut from = 0;
    while let Some((slot, _)) = step(format, image, directory, from).unwrap() {
        live += 1;
        from = slot + 1;
    }
    (live + 2 < length, length.is_multiple_of(2))
}

/// Free words of clusters that may be taken, and of others.
fn free_words(format: Format, image: &[u8]) -> [usize; 2] {
    let table = Checked::of(format, image).unwrap().card.table;
    let free: Vec<bool> = open_clusters(format, image)
        .into_iter()
        .zip(table)
        .filter(|(_, word)| word >> 31 == 0)
        .map(|(open, _)| open)
        .collect();
    [true, false].map(|is_open| free.iter().filter(|&&open| open == is_open).count())
}

/// The number a change must be refused with, from the tree, the free words and the room.
fn predicted(format: Format, image: &[u8], tree: &Tree, change: &Change) -> Option<u8> {
    let Some(names) = paths::parse(change.path()).filter(|names| !names.is_empty()) else { return Some(8) };
    if matches!(change, Change::MakeDir { .. }) && names.len() == paths::MOST_NAMES {
        return Some(8);
    }
    let time = match change {
        Change::Create { time, .. } | Change::Replace { time, .. } | Change::MakeDir { time, .. } => Some(time),
        _ => None,
    };
    if time.is_some_and(|time| !time::valid(time)) {
        return Some(14);
    }
    let mut around = b"/".to_vec();
    for name in &names[..names.len() - 1] {
        around = paths::join(&around, name);
        match tree.get(&around) {
            None => return Some(9),
            Some(item) if !item.is_directory => return Some(10),
            Some(_) => {}
        }
    }
    let there = tree.get(change.path());
    // The entry itself, where it is there, and that of the directory around it.
    let is_locked = there.is_some_and(|item| item.mode & 2 == 0) || tree[&around].mode & 2 == 0;
    let unless_locked = |number: Option<u8>| if is_locked { Some(16) } else { number };
    let free = free_words(format, image)[0];
    let clusters = |data: &Vec<u8>| data.len().div_ceil(1024);
    if change.is_creation() {
        if there.is_some() {
            return Some(11);
        }
        let own = if let Change::Create { data, .. } = change { clusters(data) } else { 1 };
        let (dead, even) = room(format, image, &around);
        return unless_locked((own + usize::from(!dead && even) > free).then_some(12));
    }
    match (change, there) {
        (_, None) => Some(9),
        (Change::RemoveDir { .. }, Some(item)) if !item.is_directory => Some(10),
        (Change::Delete { .. } | Change::Replace { .. }, Some(item)) if item.is_directory => Some(10),
        (Change::RemoveDir { path }, _) => {
            let inside = tree.keys().any(|other| other != path && paths::is_beginning(path, other));
            if inside {
                Some(13)
            } else {
                unless_locked(None)
            }
        }
        (Change::Replace { data, .. }, _) => unless_locked((clusters(data) > free).then_some(12)),
        _ => unless_locked(None),
    }
}

/// The tree an accepted change must leave.
fn expected(mut tree: Tree, change: &Change) -> Tree {
    let pieces = |data: &[u8]| data.chunks(DATA).map(|part| Piece::Bytes(part.to_vec())).collect::<Vec<_>>();
    let new = |is_directory, mode, time: &[u8; 8], pieces| Item {
        is_directory,
        mode,
        attribute: 0,
        created: *time,
        modified: *time,
        pieces,
    };
    match change {
        Change::Create { path, time, data } => {
            tree.insert(path.clone(), new(false, 0x8417, time, pieces(data)));
        }
        Change::MakeDir { path, time } => {
            tree.insert(path.clone(), new(true, 0x8427, time, Vec::new()));
        }
        Change::Replace { path, time, data } => {
            let item = tree.get_mut(path).unwrap();
            item.modified = *time;
            item.pieces = pieces(data);
        }
        Change::Delete { path } | Change::RemoveDir { path } => {
            tree.remove(path);
        }
    }
    tree
}

/// Which pages were rewritten, and that each raw one has a fresh code and its old last spare bytes.
fn pages_are_right(format: Format, before: &[u8], after: &[u8], change: &Change) {
    let (old, new) = (Checked::of(format, before).unwrap(), Checked::of(format, after).unwrap());
    let mut must: BTreeSet<usize> = BTreeSet::new();
    for cluster in 0..old.card.alloc_end {
        if old.card.table[cluster] >> 31 == 0 && new.card.table[cluster] >> 31 == 1 {
            must.extend([new.card.page(cluster, 0), new.card.page(cluster, 1)]);
        }
    }
    if change.is_creation() {
        let names = paths::parse(change.path()).unwrap();
        must.insert(reader::lookup::locate(&new.root, &names).unwrap().page);
    }
    for page in 0..before.len() / format.page_bytes() {
        let (one, other) = (&before[format.place(page)], &after[format.place(page)]);
        if one != other && !must.contains(&page) {
            let change = (page::read(format, before, page), page::read(format, after, page));
            assert!(change.0.is_some() && change.0 != change.1, "page {page} was rewritten for nothing");
        }
        if format == Format::Plain {
            continue;
        }
        assert_eq!(one[DATA + 12..], other[DATA + 12..], "spare bytes 12 to 15 of page {page}");
        if one != other || must.contains(&page) {
            let fresh: Vec<u8> = other[..DATA].chunks(128).flat_map(code_of).collect();
            assert_eq!(fresh, other[DATA..DATA + 12], "code of page {page}");
        }
    }
}

/// Each table word stays, is freed by its top bit, is newly taken, or leads a directory's end to its growth.
fn table_is_right(format: Format, before: &[u8], after: &[u8]) {
    let (old, new) = (Checked::of(format, before).unwrap(), Checked::of(format, after).unwrap());
    for (cluster, is_open) in open_clusters(format, before).into_iter().enumerate() {
        let (one, other) = (old.card.table[cluster], new.card.table[cluster]);
        match (one >> 31, other >> 31) {
            (0, 0) => assert_eq!(one, other),
            (1, 0) => assert_eq!(other, one & 0x7FFF_FFFF),
            (0, 1) => assert!(is_open),
            (1, 1) if one != other => {
                assert_eq!(one, 0xFFFF_FFFF);
                assert_eq!(old.card.table[(other & 0x7FFF_FFFF) as usize] >> 31, 0);
            }
            _ => {}
        }
    }
    let last = *old.card.table_clusters.last().unwrap();
    let words = |image: &[u8]| [0, 1].map(|second| page::read(format, image, 2 * last + second).unwrap()).concat();
    let used = 4 * ((old.card.alloc_end - 1) % 256 + 1);
    assert_eq!(words(before)[used..], words(after)[used..], "words from alloc_end on");
}

/// Bytes of the changed entry's page that a replacement or removal may touch.
fn entry_is_kept(format: Format, before: &[u8], after: &[u8], change: &Change) {
    let names = paths::parse(change.path()).unwrap();
    let page = reader::lookup::locate(&Checked::of(format, before).unwrap().root, &names).unwrap().page;
    let (one, other) = (page::read(format, before, page).unwrap(), page::read(format, after, page).unwrap());
    for at in 0..DATA {
        let open = if change.is_removal() { at == 1 } else { matches!(at, 4..=7 | 0x10..=0x13 | 0x18..=0x1F) };
        assert!(open || one[at] == other[at], "byte {at:#x}");
    }
    assert!(!change.is_removal() || one[1] == other[1] | 0x80);
}

/// Counts after a change: nothing is lost, and orphans stay.
fn counts_are_right(format: Format, before: &[u8], after: &[u8]) {
    let (old, new) = (check(format, before).unwrap(), check(format, after).unwrap());
    assert_eq!(old.orphaned, new.orphaned);
    assert_eq!(old.free + old.reached + old.held, new.free + new.reached + new.held);
    assert_eq!([new.free, new.held], free_words(format, after));
}

/// A sequence on each seeded card; acceptance and each refusal are met so often.
fn changes_do_what_the_model_says(cards: impl Iterator<Item = RandomCard>, times: usize) {
    let mut seen: HashMap<u8, usize> = HashMap::new();
    for (seed, RandomCard { format, mut image, .. }) in (0..).zip(cards) {
        let mut rng = Rng::new(seed + 1_000_000);
        let steps = if image.len() > 400_000 { 6 } else { 30 };
        for step in 0..steps {
            let before = tree(format, &image).unwrap();
            let change = random_change(&mut rng, &before);
            let mut after = image.clone();
            let answer = change.apply(format, &mut after);
            let predicted = predicted(format, &image, &before, &change);
            assert_eq!(
                answer,
                predicted.map_or(Ok(()), |number| Err(Refusal::number(number))),
                "seed {seed} step {step} {change:?}"
            );
            *seen.entry(predicted.unwrap_or(0)).or_default() += 1;
            if answer.is_err() {
                assert!(after == image, "a refusal leaves the image");
                continue;
            }
            assert!(tree(format, &after).unwrap() == expected(before, &change), "seed {seed} step {step} {change:?}");
            pages_are_right(format, &image, &after, &change);
            counts_are_right(format, &image, &after);
            table_is_right(format, &image, &after);
            if !change.is_creation() {
                entry_is_kept(format, &image, &after, &change);
            }
            image = after;
        }
    }
    for number in [0, 8, 9, 10, 11, 12, 13, 14, 16] {
        assert!(seen.get(&number).is_some_and(|&count| count >= times), "number {number}: {seen:?}");
    }
}

#[test]
fn raw_cards() {
    changes_do_what_the_model_says((0..260).map(|seed| random(Format::Raw, seed)), 10);
}

#[test]
fn plain_cards() {
    changes_do_what_the_model_says((0..260).map(|seed| random(Format::Plain, seed)), 10);
}

/// Cards with a tail, where the limit decides.
#[test]
fn tight_cards() {
    changes_do_what_the_model_says((0..100).map(|seed| tight(Format::BOTH[seed as usize % 2], seed)), 10);
}

/// Cards with a list of bad blocks, which decides.
#[test]
fn listed_cards() {
    changes_do_what_the_model_says((0..200).map(|seed| listed(Format::BOTH[seed as usize % 2], seed)), 10);
}
