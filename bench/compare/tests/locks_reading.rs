//! Looking at a card takes no notice of its locks: check, listing, find, step, read and the conversions answer on a
//! card where everything is locked as on the same card where nothing is, apart from the modes.

mod common;

use common::converts::Converts;
use common::lookups::Lookups;
use common::Tally;
use compare::cards::full;
use compare::listing;
use reader::build::locks::{alter_mode, card, place, set_dots, set_each, Which};
use reader::build::random::random;
use reader::build::{deep, good};
use reader::content::Tree;
use reader::{tree, Entry, Format};

/// The card with the write bit in every entry, dots too, and without it in any.
fn both_ways(format: Format, image: &[u8]) -> [Vec<u8>; 2] {
    [true, false].map(|is_writable| {
        let mut image = image.to_vec();
        set_each(format, &mut image, |_| is_writable);
        set_dots(format, &mut image, || is_writable);
        image
    })
}

/// The entry of a locked card as it is on the open one.
fn opened(entry: Entry) -> Entry {
    assert_eq!(entry.mode & 2, 0, "the entry is locked");
    Entry { mode: entry.mode | 2, ..entry }
}

/// What was met on the cards.
#[derive(Default)]
struct Met {
    entries: usize,
    bytes: usize,
    unreadable: usize,
}

struct Run {
    checks: Tally,
    lookups: Lookups,
    converts: Converts,
    met: Met,
}

impl Run {
    fn new(format: Format) -> Run {
        let (checks, converts) = Default::default();
        Run { checks, lookups: Lookups::new(format), converts, met: Met::default() }
    }

    /// All calls on both, at so many of its paths.
    fn card(&mut self, image: &[u8], paths: usize, what: &str) {
        let format = self.lookups.format;
        let [open, locked] = both_ways(format, image);
        assert!(open != locked);
        let what = || what.to_string();
        let counts = self.checks.same(format, &open, what);
        assert_eq!(self.checks.same(format, &locked, what), counts, "{}", what());
        for minutes in [0, -1260, 299, 301] {
            let text = listing::whole_at(format, &open, minutes);
            assert!(text == reader::list(format, &open, minutes), "the listings differ, {}", what());
            assert!(text == listing::whole_at(format, &locked, minutes), "locks differ in the listing, {}", what());
        }
        let items = tree(format, &open).expect("an accepted card");
        self.looks(&open, &locked, &items, paths, what);
        self.conversions(&open, &locked, what);
    }

    fn looks(&mut self, open: &[u8], locked: &[u8], items: &Tree, paths: usize, what: impl Fn() -> String + Copy) {
        for (path, item) in items.iter().step_by(items.len().div_ceil(paths)) {
            let found = self.lookups.find_mended(open, path, what).expect("it is there");
            let again = self.lookups.find_mended(locked, path, what).expect("it is there");
            assert_eq!((opened(again.value), again.mended), (found.value.clone(), found.mended), "{}", what());
            self.met.entries += 1;
            for slot in if item.is_directory { 0..found.value.length.min(40) + 1 } else { 0..1 } {
                let next = self.lookups.step_mended(open, path, slot, what).map(|next| (next.value, next.mended));
                let again = self.lookups.step_mended(locked, path, slot, what);
                let again = again.map(|next| (next.value.map(|(slot, entry)| (slot, opened(entry))), next.mended));
                assert_eq!(again, next, "{}", what());
            }
            for (offset, size) in [(0, 5000), (1, 700), (found.value.length as usize + 1, 9)] {
                let read = self.lookups.read_mended(open, path, offset, size, what);
                assert!(read == self.lookups.read_mended(locked, path, offset, size, what), "{}", what());
                match read.0 {
                    Ok(answer) => self.met.bytes += answer.value,
                    Err(refusal) => self.met.unreadable += usize::from(refusal.number == 2),
                }
            }
        }
        for path in [&b"/no-such-name-is-there"[..], b"", b"/.", b"/no-such-way/x"] {
            let find = self.lookups.find(open, path, what).map(drop);
            assert_eq!(self.lookups.find(locked, path, what).map(drop), find, "{}", what());
        }
    }

    /// Locking a converted card is converting a locked one.
    fn conversions(&mut self, open: &[u8], locked: &[u8], what: impl Fn() -> String + Copy) {
        let format = self.lookups.format;
        let converted =
            self.converts.whole(format, open, what).map(|image| both_ways(format.other(), &image)[1].clone());
        assert!(self.converts.whole(format, locked, what) == converted, "{}", what());
    }

    /// Nothing was too rare.
    fn met(&self, times: usize) {
        let Met { entries, bytes, unreadable } = self.met;
        println!("{entries} entries, {bytes} bytes, {unreadable} unreadable pages");
        assert!(entries >= times && bytes >= 100 * times, "{entries} {bytes}");
        assert_eq!(unreadable > 0, self.lookups.format == Format::Raw);
        self.lookups.reads.met([0, 10, 15], times / 10);
        self.lookups.steps.met([0, 10], times / 10);
        self.converts.tally.met([0], 10);
    }
}

fn cards(format: Format) {
    let mut run = Run::new(format);
    run.card(&card(format, false).image, 100, "the sample of locks");
    run.card(&deep::sample(format).finish(), 100, "the deep sample");
    for good in good::all(format).into_iter().filter(|good| good.image.len() < 1 << 20) {
        run.card(&good.image, 100, good.name);
    }
    for seed in 0..60 {
        run.card(&random(format, seed).image, 40, &format!("random card {seed}"));
    }
    run.met(800);
}

#[test]
fn raw_cards() {
    cards(Format::Raw);
}

#[test]
fn plain_cards() {
    cards(Format::Plain);
}

#[test]
fn full_cards() {
    for format in Format::BOTH {
        let mut run = Run::new(format);
        run.card(&full(format), 4, "PCSX2's full card");
    }
}

/// A mode stands in the entry as it is, every bit of it: a find tells it.
#[test]
fn every_mode() {
    for format in Format::BOTH {
        let mut lookups = Lookups::new(format);
        let open = card(format, false).image;
        for (path, kind) in [(&b"/"[..], 0x20), (b"/A/v", 0x20), (b"/A/B/f", 0x10)] {
            let page = place(format, &open, path, Which::Own);
            for mode in (0x8000..=0xFFFF_u16).filter(|mode| mode & 0x30 == kind).step_by(37) {
                let mut image = open.clone();
                alter_mode(format, &mut image, page, |_| mode);
                let what = || format!("mode {mode:#06x}");
                assert_eq!(lookups.find(&image, path, what).map(|entry| entry.mode), Ok(mode));
                assert!(listing::whole(format, &image) == listing::whole(format, &open), "{}", what());
            }
        }
    }
}
