//! The full card PCSX2 wrote, and its plain twin, through find, step and read: what comes back is what PCSX2 read, not
//! what the reader says.

mod common;

use std::collections::HashMap;

use common::lookups::{unread, Lookups};
use compare::cards::{full, recorded, Recorded};
use reader::build::scribble::break_page;
use reader::entry::name_field;
use reader::page::DATA;
use reader::rng::Rng;
use reader::tree::Checked;
use reader::{lookup, sha256, Entry, Format, Refusal};

const TREE: &str = "full-small.tree";

/// The entry has the fields that PCSX2 recorded.
fn assert_recorded(entry: &Entry, line: &Recorded) {
    let name = match line.path.rsplit_once('/').expect("paths begin with a slash").1 {
        "" => ".",
        name => name,
    };
    let Recorded { mode, length, created, first_cluster, modified, attribute, .. } = *line;
    assert_eq!((entry.mode, entry.attribute), (mode, attribute), "{}", line.path);
    assert_eq!((entry.created, entry.modified), (created, modified), "{}", line.path);
    assert_eq!((entry.length, entry.first_cluster), (length, first_cluster), "{}", line.path);
    assert_eq!(entry.name_field, name_field(name.as_bytes()), "{}", line.path);
}

/// The root, the directories and some files by their paths; `every_directory` meets the others.
#[test]
fn entries() {
    for format in Format::BOTH {
        let image = full(format);
        let is_found = |(place, line): &(usize, Recorded)| line.is_directory() || place % 8 == 0;
        for (_, line) in recorded(TREE).into_iter().enumerate().filter(is_found) {
            let entry = compare::find(format, &image, line.path.as_bytes()).expect("PCSX2 found it");
            assert_recorded(&entry, &line);
        }
    }
}

/// Each file whole, into a buffer with some room left.
#[test]
fn every_file() {
    for format in Format::BOTH {
        let image = full(format);
        let mut rng = Rng::new(8135);
        let files: Vec<Recorded> = recorded(TREE).into_iter().filter(|line| !line.is_directory()).collect();
        assert_eq!(files.len(), 2000);
        for line in files {
            let length = line.length as usize;
            let mut buffer: Vec<u8> = (0..length + rng.below(700)).map(unread).collect();
            let read = compare::read(format, &image, line.path.as_bytes(), 0, &mut buffer);
            assert_eq!(read, Ok(length), "{}", line.path);
            assert_eq!(Some(sha256::hex(&buffer[..length])), line.sum, "{}", line.path);
            assert!((length..buffer.len()).all(|at| buffer[at] == unread(at)), "{}", line.path);
        }
    }
}

/// Files put together from pieces read at their places in random order.
#[test]
fn pieces() {
    for format in Format::BOTH {
        let image = full(format);
        let mut rng = Rng::new(3676);
        for line in recorded(TREE).iter().filter(|line| line.length > 512).step_by(11) {
            let mut cuts: Vec<usize> = (0..4).map(|_| rng.below(line.length as usize)).collect();
            cuts.extend([0, line.length as usize]);
            cuts.sort();
            let mut parts: Vec<&[usize]> = cuts.windows(2).collect();
            rng.shuffle(&mut parts);
            let mut bytes = vec![0; line.length as usize];
            for part in parts {
                let part = part[0]..part[1];
                let read = compare::read(format, &image, line.path.as_bytes(), part.start, &mut bytes[part.clone()]);
                assert_eq!(read, Ok(part.len()), "{} {part:?}", line.path);
            }
            assert_eq!(Some(sha256::hex(&bytes)).as_ref(), line.sum.as_ref(), "{}", line.path);
        }
    }
}

/// Each directory stepped through from slot 0 gives PCSX2's entries in its order, and then the end.
#[test]
fn every_directory() {
    for format in Format::BOTH {
        let image = full(format);
        let lines = recorded(TREE);
        let mut inside: HashMap<&str, Vec<&Recorded>> = HashMap::new();
        for line in lines.iter().skip(1) {
            let parent = line.path.rsplit_once('/').expect("paths begin with a slash").0;
            inside.entry(if parent.is_empty() { "/" } else { parent }).or_default().push(line);
        }
        for directory in lines.iter().filter(|line| line.is_directory()) {
            let step = |slot: usize| {
                compare::step(format, &image, directory.path.as_bytes(), slot as u32).expect("a directory")
            };
            let mut slot = 0;
            for line in inside.remove(&directory.path[..]).unwrap_or_default() {
                let (at, entry) = step(slot).expect("PCSX2 found one more");
                assert_recorded(&entry, line);
                slot = at + 1;
            }
            assert_eq!(step(slot), None, "{}", directory.path);
        }
        assert!(inside.is_empty(), "only directories have something inside");
    }
}

/// An unreadable page of a file is met by the reads that copy a byte of it, and by no other.
#[test]
fn damaged_files() {
    let format = Format::Raw;
    let mut image = full(format);
    let mut rng = Rng::new(528);
    let checked = Checked::of(format, &image).expect("PCSX2's card is sound");
    let mut lookups = Lookups::new(format);
    let files: Vec<Recorded> = recorded(TREE).into_iter().filter(|line| line.length > 1024).collect();
    for line in files.iter().step_by(7) {
        let path = line.path.as_bytes();
        let node = lookup::locate(&checked.root, &lookup::names(path).expect("a path")).expect("it is there");
        let index = rng.below((line.length as usize).div_ceil(DATA));
        let page = checked.card.slot_page(&node.chain, index);
        break_page(format, &mut image, page);
        let damage = index * DATA..(index + 1) * DATA;
        for _ in 0..4 {
            let offset = rng.below(line.length as usize);
            let size = rng.between(1, 900);
            let end = (offset + size).min(line.length as usize);
            let read = lookups.read(&image, path, offset, size, || format!("page {page} unreadable")).0;
            let expected = match offset < damage.end && damage.start < end {
                true => Err(Refusal::unreadable(page)),
                false => Ok(end - offset),
            };
            assert_eq!(read, expected, "{} from {offset}, {size} bytes, page {page}", line.path);
        }
    }
    lookups.reads.met([0, 2], 50);
}
