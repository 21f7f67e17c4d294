//! Which bytes a change writes, on cards drawn up by hand: pages, table words, entries, slots.

mod common;

use common::changes::Changes;
use common::flip_each_chunk;
use reader::build::good::{sample, wide};
use reader::build::scribble::{break_page, junk_spare};
use reader::build::{bench, usual_time, Assembly, Layout};
use reader::ecc::code_of;
use reader::entry::{name_field, Entry, NO_CLUSTER};
use reader::page::{self, word, DATA};
use reader::rng::Rng;
use reader::time::{stamp, Time};
use reader::{Change, Format, Refusal};

fn later() -> Time {
    stamp(2024, 2, 29, 23, 59, 59)
}

fn create(path: &[u8], bytes: usize) -> Change {
    Change::Create { path: path.to_vec(), time: later(), data: Rng::new(bytes as u64).bytes(bytes) }
}

fn replace(path: &[u8], time: Time, bytes: usize) -> Change {
    Change::Replace { path: path.to_vec(), time, data: Rng::new(bytes as u64).bytes(bytes) }
}

fn delete(path: &[u8]) -> Change {
    Change::Delete { path: path.to_vec() }
}

fn make(path: &[u8]) -> Change {
    Change::MakeDir { path: path.to_vec(), time: later() }
}

fn remove(path: &[u8]) -> Change {
    Change::RemoveDir { path: path.to_vec() }
}

/// A change by library and reader on one image.
fn apply(format: Format, image: &mut [u8], change: &Change) -> Result<(), Refusal> {
    Changes::new(format).apply(image, change, || "drawn up by hand".into())
}

fn accept(format: Format, image: &mut [u8], change: &Change) {
    assert_eq!(apply(format, image, change), Ok(()), "{change:?}");
}

/// The words of a table cluster.
fn words(format: Format, image: &[u8], cluster: usize) -> Vec<u32> {
    let page = |second| page::read(format, image, 2 * cluster + second).expect("a table page");
    [page(0), page(1)].concat().chunks(4).map(|bytes| word(bytes, 0)).collect()
}

/// The slots of a directory's live entries, with their names.
fn slots(format: Format, image: &[u8], path: &[u8]) -> Vec<(usize, Vec<u8>)> {
    let mut found: Vec<(usize, Vec<u8>)> = Vec::new();
    let next = |from: usize| compare::step(format, image, path, from as u32).expect("a directory");
    while let Some((slot, entry)) = next(found.last().map_or(0, |(slot, _)| slot + 1)) {
        found.push((slot, entry.name().expect("a judged name").to_vec()));
    }
    found
}

/// With a flip in every chunk of every raw page, a page that is written shows by its fresh code; a plain one shows by its
/// data. Every other byte stays.
#[test]
fn only_what_changes_is_written() {
    // The sample's cluster c is pages 20 + 2 c and 21 + 2 c; its table is page 18; clusters from 13 on are free.
    let cases: [(&[Change], Change, &[usize]); 16] = [
        (&[], delete(b"/E"), &[25]),
        (&[], delete(b"/F"), &[18, 23]),
        (&[], delete(b"/D/D2/D3/deep"), &[18, 40]),
        (&[delete(b"/D/D2/D3/deep")], remove(b"/D/D2/D3"), &[18, 36]),
        // nothing changes in the data, so nothing is written
        (&[], replace(b"/E", usual_time(), 0), &[]),
        (&[], replace(b"/E", later(), 0), &[25]),
        (&[], replace(b"/E", later(), 1), &[18, 25, 46, 47]),
        (&[], replace(b"/F", later(), 0), &[18, 23]),
        (&[], replace(b"/F", usual_time(), 2048), &[18, 23, 46, 47, 48, 49]),
        // the dead slot of the root, then growth by one cluster, whose second page is zero
        (&[], create(b"/new", 0), &[24]),
        (&[], create(b"/new", 1025), &[18, 24, 46, 47, 48, 49]),
        (&[create(b"/new", 0)], create(b"/more", 0), &[18, 20, 46, 47]),
        (&[create(b"/new", 0)], create(b"/more", 1), &[18, 20, 46, 47, 48, 49]),
        // an odd directory has room; its length stands in its entry
        (&[], create(b"/D/x", 0), &[22, 33]),
        (&[], make(b"/D/x"), &[18, 22, 33, 46, 47]),
        (&[], create(b"/D/D2/D3/x", 0), &[36, 41]),
    ];
    for (format, (number, (first, change, expected))) in
        Format::BOTH.into_iter().flat_map(|format| cases.iter().enumerate().map(move |case| (format, case)))
    {
        let mut before = sample(format).finish();
        first.iter().for_each(|change| accept(format, &mut before, change));
        let mut rng = Rng::new(number as u64);
        let pages = before.len() / format.page_bytes();
        if format == Format::Raw {
            for page in 0..pages {
                flip_each_chunk(&mut before, page, &mut rng);
                junk_spare(&mut before, page, &mut rng);
            }
        }
        let mut after = before.clone();
        accept(format, &mut after, change);
        let bytes = |page: usize| (&before[format.place(page)], &after[format.place(page)]);
        let is_written = |&page: &usize| bytes(page).0 != bytes(page).1;
        let written: Vec<usize> = (0..pages).filter(is_written).collect();
        assert_eq!(written, *expected, "{format:?}, {change:?}");
        for page in written.into_iter().filter(|_| format == Format::Raw) {
            let (old, new) = bytes(page);
            let code: Vec<u8> = new[..DATA].chunks(128).flat_map(code_of).collect();
            assert_eq!(new[DATA..], [&code, &old[DATA + 12..]].concat(), "page {page}, {change:?}");
        }
    }
}

/// A card is filled to the last cluster and emptied; the words from alloc_end on are neither taken nor altered.
#[test]
fn words_from_alloc_end_on() {
    for format in Format::BOTH {
        for layout in [Layout::bench(), wide()] {
            let mut card = Assembly::with_root(format, layout.clone());
            let mut rng = Rng::new(31);
            card.table[layout.alloc_end..].iter_mut().for_each(|word| *word = rng.draw() as u32 >> rng.below(2));
            let mut image = card.finish();
            let last = *layout.table.last().expect("a table");
            let beyond = |image: &[u8]| words(format, image, last)[layout.alloc_end % 256..].to_vec();
            let kept = beyond(&image);
            let most = (layout.alloc_end - 2) * 1024;
            assert_eq!(apply(format, &mut image, &create(b"/A", most + 1)), Err(Refusal::number(12)));
            accept(format, &mut image, &create(b"/A", most));
            assert_eq!(beyond(&image), kept);
            accept(format, &mut image, &replace(b"/A", later(), 0));
            accept(format, &mut image, &delete(b"/A"));
            assert_eq!(beyond(&image), kept);
        }
    }
}

/// New chains take the lowest free clusters, growth first; a freed word loses its top bit alone.
#[test]
fn table_words() {
    for format in Format::BOTH {
        let mut image = bench(format);
        let first = |image: &[u8]| words(format, image, 9)[..8].to_vec();
        let (free, end, to) = (0x7FFF_FFFF, 0xFFFF_FFFF, |next: u32| 0x8000_0000 + next);
        accept(format, &mut image, &create(b"/A", 2000));
        assert_eq!(first(&image), [to(1), end, to(3), end, free, free, free, free]);
        accept(format, &mut image, &create(b"/B", 1));
        assert_eq!(first(&image), [to(1), end, to(3), end, end, free, free, free]);
        accept(format, &mut image, &delete(b"/A"));
        assert_eq!(first(&image), [to(1), end, 3, free, end, free, free, free]);
        // the new clusters are those that were free before, so that the old one is not among them
        accept(format, &mut image, &replace(b"/B", later(), 3000));
        assert_eq!(first(&image), [to(1), end, to(3), to(5), free, end, free, free]);
        accept(format, &mut image, &make(b"/A"));
        assert_eq!(first(&image), [to(1), end, to(3), to(5), end, end, free, free]);
        accept(format, &mut image, &replace(b"/B", later(), 0));
        accept(format, &mut image, &remove(b"/A"));
        assert_eq!(first(&image), [to(1), end, 3, 5, free, free, free, free]);
        // the root has a dead slot; `/D` takes cluster 2 and grows for its first file
        accept(format, &mut image, &make(b"/D"));
        accept(format, &mut image, &create(b"/D/x", 1));
        assert_eq!(first(&image), [to(1), end, to(3), end, end, free, free, free]);
    }
}

/// A root of empty files takes the whole card, two to a cluster; its dead slots are taken again, the lowest first.
#[test]
fn growing_directory() {
    for format in Format::BOTH {
        let mut image = bench(format);
        let name = |number: usize| format!("/f{number:02}").into_bytes();
        (0..58).for_each(|number| accept(format, &mut image, &create(&name(number), 0)));
        assert_eq!(compare::check(format, &image).map(|counts| (counts.free, counts.reached)), Ok((0, 30)));
        assert_eq!(apply(format, &mut image, &create(b"/more", 0)), Err(Refusal::number(12)));
        let expected: Vec<(usize, Vec<u8>)> = (0..58).map(|number| (2 + number, name(number)[1..].to_vec())).collect();
        assert_eq!(slots(format, &image, b"/"), expected);

        let mut dead = vec![9, 2, 41, 59, 10, 30];
        dead.iter().for_each(|slot| accept(format, &mut image, &delete(&name(slot - 2))));
        dead.sort();
        for slot in dead {
            let path = format!("/new{slot}").into_bytes();
            accept(format, &mut image, &create(&path, 0));
            assert!(slots(format, &image, b"/").contains(&(slot, path[1..].to_vec())), "slot {slot}");
        }
        assert_eq!(compare::find(format, &image, b"/").map(|entry| entry.length), Ok(60));
        assert_eq!(apply(format, &mut image, &create(b"/more", 0)), Err(Refusal::number(12)));
    }
}

/// The page after an odd directory's last entry need not be readable to take the next one.
#[test]
fn odd_directories() {
    let format = Format::Raw;
    let mut image = sample(format).finish();
    [33, 37, 41].iter().for_each(|&page| break_page(format, &mut image, page));
    let before = compare::check(format, &image).expect("the page is not needed");
    accept(format, &mut image, &create(b"/D/x", 0));
    accept(format, &mut image, &make(b"/D/D2/x"));
    accept(format, &mut image, &create(b"/D/D2/D3/x", 10));
    assert!([33, 37, 41].iter().all(|&page| page::read(format, &image, page).is_some()));
    assert_eq!(compare::check(format, &image).map(|counts| counts.free), Ok(before.free - 2));
    assert_eq!(slots(format, &image, b"/D"), [(2, b"D2".to_vec()), (3, b"x".to_vec())]);
}

/// A new entry's page and the pages of new clusters are written even where they hold those bytes already: their
/// flips are gone.
#[test]
fn written_though_the_same() {
    let format = Format::Raw;
    let mut image = sample(format).finish();
    let change = create(b"/D/x", 1025);
    let mut made = image.clone();
    accept(format, &mut made, &change);
    let pages = [33, 46, 47, 48, 49];
    let mut rng = Rng::new(33);
    for page in pages {
        image[format.place(page)].copy_from_slice(&made[format.place(page)]);
        flip_each_chunk(&mut image, page, &mut rng);
    }
    accept(format, &mut image, &change);
    assert!(image == made);
}

/// No change reads a file's pages, nor the pages of a free cluster.
#[test]
fn unreadable_files() {
    let format = Format::Raw;
    let mut image = sample(format).finish();
    // F is in clusters 5 and 4; 13 and 14 are free.
    let pages = [28, 29, 30, 31, 46, 47, 48, 49];
    pages.iter().for_each(|&page| break_page(format, &mut image, page));
    let mut deleted = image.clone();
    accept(format, &mut deleted, &delete(b"/F"));
    assert!(pages.iter().all(|&page| page::read(format, &deleted, page).is_none()));
    accept(format, &mut image, &replace(b"/F", later(), 1100));
    let mut buffer = vec![0; 1100];
    assert_eq!(compare::read(format, &image, b"/F", 0, &mut buffer), Ok(1100));
    assert!(buffer == Rng::new(1100).bytes(1100));
    // the old clusters are the lowest free ones now
    for mut image in [image, deleted] {
        accept(format, &mut image, &create(b"/new", 2000));
        assert!(pages[..4].iter().all(|&page| page::read(format, &image, page).is_some()));
        let mut buffer = vec![0; 2000];
        assert_eq!(compare::read(format, &image, b"/new", 0, &mut buffer), Ok(2000));
        assert!(buffer == Rng::new(2000).bytes(2000));
    }
}

/// Every byte of new entries, and zeros after a file's end.
#[test]
fn new_entries() {
    for format in Format::BOTH {
        let mut image = sample(format).finish();
        accept(format, &mut image, &make(b"/D/sub"));
        accept(format, &mut image, &make(b"/D/sub/low"));
        accept(format, &mut image, &create(b"/name", 5));
        accept(format, &mut image, &create(b"/none", 0));
        let entry = |mode, length, first_cluster, dir_entry, name| Entry {
            mode,
            length,
            created: later(),
            first_cluster,
            dir_entry,
            modified: later(),
            attribute: 0,
            name_field: name_field(name),
        };
        let mut data = [0; DATA];
        data[..5].copy_from_slice(&Rng::new(5).bytes(5));
        // `sub` is slot 3 of D, which begins at cluster 3; it takes 13, its growth 14 and `low` 15; the file takes 16.
        for (page, expected) in [
            (33, entry(0x8427, 3, 13, 0, b"sub").page()),
            (46, entry(0x8427, 0, 3, 3, b".").page()),
            (47, entry(0x8427, 0, 0, 0, b"..").page()),
            (48, entry(0x8427, 2, 15, 0, b"low").page()),
            (49, [0; DATA]),
            (50, entry(0x8427, 0, 13, 2, b".").page()),
            (51, entry(0x8427, 0, 0, 0, b"..").page()),
            (24, entry(0x8417, 5, 16, 0, b"name").page()),
            (52, data),
            (53, [0; DATA]),
            (54, entry(0x8417, 0, NO_CLUSTER, 0, b"none").page()),
            (55, [0; DATA]),
        ] {
            assert!(page::read(format, &image, page) == Some(expected), "page {page}");
        }
    }
}
