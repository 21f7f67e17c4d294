//! Directories of 60,000 entries, and the greatest that fits any card: twins, ends and the last slot.

mod common;

use common::changes::Changes;
use common::lookups::Lookups;
use common::{same, with_page};
use compare::cards::{crowd, files_in_root, great_directory, Names};
use compare::listing;
use reader::build::{usual_time, Layout};
use reader::card::MOST_CLUSTERS;
use reader::page;
use reader::rng::Rng;
use reader::{Change, Format, Refusal};

const SEVEN: Refusal = Refusal::number(7);

/// Twins at both ends, at the very end, and somewhere between; every page is put back.
fn twins(format: Format, image: &mut [u8], page_of: impl Fn(usize) -> usize, length: usize, what: &str) {
    let mut rng = Rng::new(length as u64);
    let (last, middle) = (length - 1, rng.between(4, length - 2));
    for (one, other) in [(2, last), (last - 1, last), (rng.between(2, middle - 1), middle)] {
        let twin = page::read(format, image, page_of(one)).expect("an entry");
        let change = |image: &mut [u8]| page::write(format, image, page_of(other), &twin);
        let about = format!("{what}, slots {one} and {other}");
        let answer = with_page(format, image, page_of(other), change, |image| same(format, image, &about));
        assert_eq!(answer, Err(SEVEN), "{format:?}, {about}");
    }
}

fn sixty_thousand(format: Format, orders: &[Names]) {
    for &names in orders {
        let mut card = great_directory(format, names);
        let what = format!("60,000 entries, {names:?}");
        assert_eq!(same(format, &card.image, &what), Ok(card.counts), "{what}");
        // The root has two clusters, the directory's chain follows.
        let first = 2 * (Layout::fresh(MOST_CLUSTERS).alloc_offset + 2);
        twins(format, &mut card.image, |slot| first + slot, 60_002, &what);
    }
}

#[test]
fn sixty_thousand_raw() {
    sixty_thousand(Format::Raw, &Names::ALL);
}

#[test]
fn sixty_thousand_plain() {
    sixty_thousand(Format::Plain, &[Names::Shuffled]);
}

/// 40 directories of 50 entries around a great one, and before it; all have names in common.
#[test]
fn small_ones_beside() {
    for (format, great) in [(Format::Raw, 17), (Format::Plain, 40)] {
        let mut directories = vec![50; 40];
        directories.insert(great, 60_000);
        let card = crowd(format, Layout::fresh(MOST_CLUSTERS), &directories, Names::Shuffled);
        let what = format!("the great one at {great}");
        assert_eq!(same(format, &card.image, &what), Ok(card.counts), "{format:?}, {what}");

        let mut lookups = Lookups::new(format);
        let root = Names::Shuffled.of(41);
        for (place, files) in [(great, 60_000), ((great + 1) % 41, 50)] {
            let path = [b"/", &root[place][..]].concat();
            let names = Names::Shuffled.of(files);
            for slot in [2, files + 1] {
                let next = lookups.step(&card.image, &path, slot as u32, || what.clone()).expect("a directory");
                let (at, entry) = next.expect("a live entry");
                assert_eq!((at, entry.name()), (slot, Some(&names[slot - 2][..])));
            }
            assert_eq!(lookups.step(&card.image, &path, files as u32 + 2, || what.clone()), Ok(None));
            let last = [&path[..], b"/", &names[files - 1]].concat();
            assert!(lookups.find(&card.image, &last, || what.clone()).is_ok());
            let absent = [&path[..], b"/entry060000"].concat();
            assert_eq!(lookups.find(&card.image, &absent, || what.clone()), Err(Refusal::number(9)));
        }
    }
}

/// The root over all 65,263 clusters of the widest card: 130,524 empty files.
fn greatest(format: Format) {
    const FILES: usize = 130_524;
    let layout = Layout::widest(MOST_CLUSTERS);
    let names = Names::Shuffled.of(FILES);
    let full = Ok(layout.counts(layout.alloc_end));
    let first = 2 * layout.alloc_offset;
    let what = || "greatest directory".to_string();
    // All but the last slot, which is the second page of the last cluster.
    let mut image = files_in_root(format, layout, &names[..FILES - 1]);
    assert_eq!(same(format, &image, "a slot less"), full);

    let mut changes = Changes::new(format);
    let create = |name: &[u8]| Change::Create { path: [b"/", name].concat(), time: usual_time(), data: vec![] };
    let mut apply = |image: &mut [u8], change: Change| changes.apply(image, &change, what).map_err(|it| it.number);
    assert_eq!(apply(&mut image, create(&names[0])), Err(11));
    assert_eq!(apply(&mut image, create(&names[FILES - 1])), Ok(()));
    assert_eq!(apply(&mut image, create(b"one more")), Err(12));
    assert_eq!(same(format, &image, "every slot"), full);
    twins(format, &mut image, |slot| first + slot, 2 + FILES, "greatest directory");

    let mut lookups = Lookups::new(format);
    for slot in [65_536, FILES + 1] {
        let (at, entry) = lookups.step(&image, b"/", slot as u32, what).expect("a directory").expect("a live entry");
        assert_eq!((at, entry.name()), (slot, Some(&names[slot - 2][..])));
    }
    assert_eq!(lookups.step(&image, b"/", FILES as u32 + 2, what), Ok(None));
    assert_eq!(lookups.find(&image, b"/", what).map(|root| root.length as usize), Ok(2 + FILES));
    assert_eq!(lookups.find(&image, b"/one more", what), Err(Refusal::number(9)));

    // The dead slot is taken again.
    let path = [b"/", &names[70_000][..]].concat();
    assert_eq!(apply(&mut image, Change::Delete { path }), Ok(()));
    assert_eq!(apply(&mut image, create(b"one more")), Ok(()));
    let next = lookups.step(&image, b"/", 70_002, what).expect("a directory").expect("a live entry");
    assert_eq!((next.0, next.1.name()), (70_002, Some(&b"one more"[..])));
    let text = listing::whole(format, &image);
    assert!(text == reader::list(format, &image, 0), "the listings differ");
    assert_eq!(text.lines().count(), 6 + FILES);
}

#[test]
fn greatest_raw() {
    greatest(Format::Raw);
}

#[test]
fn greatest_plain() {
    greatest(Format::Plain);
}
