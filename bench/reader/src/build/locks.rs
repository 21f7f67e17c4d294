//! Write bits on cards that stand already, and a sample card with requests at its locks and their expected numbers.

use super::good::GoodCard;
use super::{directory, file, Assembly, Layout};
use crate::card::END_MARK;
use crate::content::visit;
use crate::entry::WRITE;
use crate::lookup::{locate, names};
use crate::page::{self, half, put_half, Format};
use crate::rng::Rng;
use crate::tree::Checked;

/// One of the entries that tell of a path.
#[derive(Clone, Copy, Debug, PartialEq, Eq)]
pub enum Which {
    /// The entry in its parent, for the root its first one.
    Own,
    /// A directory's entries 0 and 1. The root's `.` is its own.
    Dot,
    Dots,
}

/// The image's page index of an entry of an accepted card.
pub fn place(format: Format, image: &[u8], path: &[u8], which: Which) -> usize {
    let checked = Checked::of(format, image).expect("an accepted card");
    let node = locate(&checked.root, &names(path).expect("a path")).expect("it is there");
    assert!(which == Which::Own || node.inside.is_some(), "only a directory has dots");
    match which {
        Which::Own => node.page,
        Which::Dot => checked.card.slot_page(&node.chain, 0),
        Which::Dots => checked.card.slot_page(&node.chain, 1),
    }
}

/// Writes the page again with another mode; a raw page gets its right code.
pub fn alter_mode(format: Format, image: &mut [u8], page: usize, mode: impl FnOnce(u16) -> u16) {
    let mut data = page::read(format, image, page).expect("a readable page");
    let before = half(&data, 0);
    put_half(&mut data, 0, mode(before));
    page::write(format, image, page, &data);
}

/// Sets or clears the write bit of one entry.
pub fn set(format: Format, image: &mut [u8], path: &[u8], which: Which, is_writable: bool) {
    let page = place(format, image, path, which);
    alter_mode(format, image, page, |mode| mode & !WRITE | if is_writable { WRITE } else { 0 });
}

/// Clears the write bit that changes at a path look at.
pub fn lock(format: Format, image: &mut [u8], path: &[u8]) {
    set(format, image, path, Which::Own, false);
}

/// The pages of all live entries: each path's own, then the dots of all directories that aren't the root's first.
fn pages(format: Format, image: &[u8]) -> [Vec<(Vec<u8>, usize)>; 2] {
    let checked = Checked::of(format, image).expect("an accepted card");
    let [mut own, mut dots] = [const { Vec::new() }; 2];
    visit(&checked.root, b"/", &mut |path, node| {
        own.push((path.to_vec(), node.page));
        if node.inside.is_some() {
            let slots = [0, 1].map(|slot| (path.to_vec(), checked.card.slot_page(&node.chain, slot)));
            dots.extend(slots.into_iter().filter(|slot| slot.1 != node.page));
        }
    });
    [own, dots]
}

/// Sets or clears the write bit of every path's entry, by its path; the dots stay.
pub fn set_each(format: Format, image: &mut [u8], mut is_writable: impl FnMut(&[u8]) -> bool) {
    for (path, page) in pages(format, image)[0].iter() {
        let bit = if is_writable(path) { WRITE } else { 0 };
        alter_mode(format, image, *page, |mode| mode & !WRITE | bit);
    }
}

/// Sets or clears the write bit of every directory's dots, but for the root's first entry.
pub fn set_dots(format: Format, image: &mut [u8], mut is_writable: impl FnMut() -> bool) {
    for (_, page) in pages(format, image)[1].iter() {
        let bit = if is_writable() { WRITE } else { 0 };
        alter_mode(format, image, *page, |mode| mode & !WRITE | bit);
    }
}

/// Draws all write bits anew: an entry lacks its one `part` times in `whole`, a dot every second time.
pub fn scatter(format: Format, image: &mut [u8], part: usize, whole: usize, rng: &mut Rng) {
    set_each(format, image, |_| !rng.chance(part, whole));
    set_dots(format, image, || rng.chance(1, 2));
}

/// The directories of the sample, each inside the one before.
pub const LEVELS: [&[u8]; 3] = [b"/", b"/A", b"/A/B"];

/// On the bench layout: in each level a file `f` of 1,000 bytes, an empty directory `v`, a directory `w` with an empty
/// file `x`, and the next level, in the last one an empty file `g`. Each level is full, 9 clusters are free.
pub fn sample(format: Format) -> Assembly {
    let mut card = Assembly::new(format, Layout::bench());
    for level in 0..3 {
        let first = 7 * level;
        let chain = [first, first + 1, first + 2];
        card.directory(&chain, 6);
        let next = match level {
            0 => directory(b"A", 6, 7),
            1 => directory(b"B", 6, 14),
            _ => file(b"g", 0, END_MARK),
        };
        let number = |place: usize| (first + place) as u32;
        card.put(first + 1, 0, &next);
        card.put(first + 1, 1, &file(b"f", 1000, number(3)));
        card.put(first + 2, 0, &directory(b"v", 2, number(4)));
        card.put(first + 2, 1, &directory(b"w", 3, number(5)));
        card.chain(&[first + 3]);
        card.directory(&[first + 4], 0);
        card.directory(&[first + 5, first + 6], 0);
        card.put(first + 6, 0, &file(b"x", 0, END_MARK));
    }
    card
}

/// The sample, with its counts; on the full one the 9 free clusters are orphaned.
pub fn card(format: Format, is_full: bool) -> GoodCard {
    let mut card = sample(format);
    if is_full {
        card.table[21..30].fill(END_MARK);
        return GoodCard::new("locks on a full card", [56, 0, 21, 9, 0], card);
    }
    GoodCard::new("locks", [56, 9, 21, 0, 0], card)
}

/// The five changes at a name inside a level of the sample, and their numbers, 0 for acceptance: create, replace,
/// delete, make, remove.
#[derive(Clone, Copy, Debug)]
pub struct Request {
    pub name: &'static [u8],
    pub time_is_valid: bool,
    /// Clusters of the data.
    pub clusters: usize,
    pub on_full_card: bool,
    /// Where neither lock is there, where the level is locked, and where the entry of the first name is.
    pub open: [u8; 5],
    pub level_locked: [u8; 5],
    pub entry_locked: [u8; 5],
}

impl Request {
    /// The numbers by which of the two is locked; the locks of both don't hinder each other.
    pub fn expected(&self, level: bool, entry: bool) -> [u8; 5] {
        let mut numbers = self.open;
        for (is_locked, locked) in [(level, self.level_locked), (entry, self.entry_locked)] {
            if is_locked {
                numbers.iter_mut().zip(locked).filter(|(_, locked)| *locked == 16).for_each(|(number, _)| *number = 16);
            }
        }
        numbers
    }

    pub fn path(&self, level: &[u8]) -> Vec<u8> {
        let slash: &[u8] = if level == b"/" { b"" } else { b"/" };
        [level, slash, self.name].concat()
    }

    /// The entry of the first name, where it is there.
    pub fn entry(&self, level: &[u8]) -> Option<Vec<u8>> {
        let first = *self.name.first()?;
        b"fvw".contains(&first).then(|| Request { name: &self.name[..1], ..*self }.path(level))
    }
}

const fn request(name: &'static [u8], clusters: usize, numbers: [[u8; 5]; 3]) -> Request {
    let [open, level_locked, entry_locked] = numbers;
    Request { name, time_is_valid: true, clusters, on_full_card: false, open, level_locked, entry_locked }
}

const fn badly_timed(name: &'static [u8], numbers: [[u8; 5]; 3]) -> Request {
    Request { time_is_valid: false, ..request(name, 10, numbers) }
}

const fn on_full(name: &'static [u8], clusters: usize, numbers: [[u8; 5]; 3]) -> Request {
    Request { on_full_card: true, ..request(name, clusters, numbers) }
}

/// By hand from the rules: 16 stands after 8, 14, 9, 10, 11 and 13 and before 12.
pub const REQUESTS: [Request; 26] = [
    request(b"f", 1, [[11, 0, 0, 11, 10], [11, 16, 16, 11, 10], [11, 16, 16, 11, 10]]),
    request(b"f", 10, [[11, 12, 0, 11, 10], [11, 16, 16, 11, 10], [11, 16, 16, 11, 10]]),
    request(b"v", 10, [[11, 10, 10, 11, 0], [11, 10, 10, 11, 16], [11, 10, 10, 11, 16]]),
    request(b"w", 10, [[11, 10, 10, 11, 13]; 3]),
    // Nothing stands there, so that only the directory around it counts.
    request(b"n", 8, [[0, 9, 9, 0, 9], [16, 9, 9, 16, 9], [0, 9, 9, 0, 9]]),
    request(b"n", 9, [[12, 9, 9, 0, 9], [16, 9, 9, 16, 9], [12, 9, 9, 0, 9]]),
    // The directory around these is `v` or `w`; the level is one farther up.
    request(b"v/n", 8, [[0, 9, 9, 0, 9], [0, 9, 9, 0, 9], [16, 9, 9, 16, 9]]),
    request(b"v/n", 9, [[12, 9, 9, 0, 9], [12, 9, 9, 0, 9], [16, 9, 9, 16, 9]]),
    request(b"w/n", 9, [[0, 9, 9, 0, 9], [0, 9, 9, 0, 9], [16, 9, 9, 16, 9]]),
    request(b"w/x", 9, [[11, 0, 0, 11, 10], [11, 0, 0, 11, 10], [11, 16, 16, 11, 10]]),
    request(b"w/x", 10, [[11, 12, 0, 11, 10], [11, 12, 0, 11, 10], [11, 16, 16, 11, 10]]),
    // 9, 10 and 8 come first, 14 too where there is a time.
    request(b"n/x", 10, [[9; 5]; 3]),
    request(b"v/n/x", 10, [[9; 5]; 3]),
    request(b"f/x", 10, [[10; 5]; 3]),
    request(b"w/x/y", 10, [[10; 5]; 3]),
    request(b"", 10, [[8; 5]; 3]),
    request(b"f*", 10, [[8; 5]; 3]),
    request(b"w/.", 10, [[8; 5]; 3]),
    badly_timed(b"f", [[14, 14, 0, 14, 10], [14, 14, 16, 14, 10], [14, 14, 16, 14, 10]]),
    badly_timed(b"v", [[14, 14, 10, 14, 0], [14, 14, 10, 14, 16], [14, 14, 10, 14, 16]]),
    badly_timed(b"n", [[14, 14, 9, 14, 9]; 3]),
    badly_timed(b"f?", [[8; 5]; 3]),
    // Without a free cluster: an empty file still fits into `w`, which has half a cluster left.
    on_full(b"f", 1, [[11, 12, 0, 11, 10], [11, 16, 16, 11, 10], [11, 16, 16, 11, 10]]),
    on_full(b"n", 0, [[12, 9, 9, 12, 9], [16, 9, 9, 16, 9], [12, 9, 9, 12, 9]]),
    on_full(b"v", 0, [[11, 10, 10, 11, 0], [11, 10, 10, 11, 16], [11, 10, 10, 11, 16]]),
    on_full(b"w/n", 0, [[0, 9, 9, 12, 9], [0, 9, 9, 12, 9], [16, 9, 9, 16, 9]]),
];
