//! What lies already where no new cluster is taken, in the reserved tail or in listed bad blocks, by library and reader:
//! chains are read, replaced and deleted, slots used, orphans stay, and unreadable pages count where they are needed.

mod common;

use common::both::{bytes, Both};
use common::lookups::Lookups;
use common::{same, with_page};
use reader::build::directory;
use reader::build::scribble::break_page;
use reader::build::withheld::{samples, Sample, LISTED, TAIL};
use reader::entry::Entry;
use reader::tree::Checked;
use reader::{Counts, Format, Refusal};

/// Cases for each of the samples, in both formats.
fn in_both<T: Clone>(cases: [T; 2]) -> impl Iterator<Item = (Format, T)> {
    Format::BOTH.into_iter().flat_map(move |format| cases.clone().map(|case| (format, case)))
}

/// The sample on each side, with these clusters free.
fn sample_with(format: Format, sample: &Sample, free: &[usize]) -> Both {
    let mut both = Both::new(format, sample.card(format, free).finish());
    both.about = sample.name.to_string();
    assert_eq!(both.counts(), sample.counts(free.len()), "{}", sample.name);
    both
}

/// What is free, and what is held back beyond the sample's own; the orphans stay, and all four add up.
fn room(both: &Both, sample: &Sample) -> (usize, usize) {
    let Counts { free, reached, orphaned, held, .. } = both.counts();
    let first = sample.counts(0);
    assert_eq!((free + reached + orphaned + held, orphaned), (sample.alloc_end, first.orphaned), "{}", sample.name);
    (free, held - first.held)
}

#[test]
fn read() {
    for (format, sample) in samples() {
        let Sample { name, inside, split, outside, .. } = &sample;
        let both = sample_with(format, &sample, &[]);
        let mut lookups = Lookups::new(format);
        for (path, clusters, length) in
            [("/INSIDE", &inside[..], 2500), ("/SPLIT", split, 4000), ("/OUTSIDE", outside, 2048)]
        {
            let entry = lookups.find(&both.ours, path.as_bytes(), String::new).expect("it is there");
            assert_eq!((entry.first_cluster, entry.length), (clusters[0] as u32, length as u32));
            for (offset, size) in [(0, 5000), (1000, 100), (2047, 1), (length - 1, 9), (length, 4)] {
                let (read, buffer) = lookups.read(&both.ours, path.as_bytes(), offset, size, String::new);
                let count = size.min(length - offset);
                assert_eq!(read, Ok(count), "{name}: {path} from {offset}");
                // Byte b of a page holds 7 times the page plus b.
                let is_right = |place: usize| {
                    let from = offset + place;
                    buffer[place] == (7 * sample.page(clusters[from / 1024], from / 512 % 2) + from % 512) as u8
                };
                assert!((0..count).all(is_right), "{name}: {path} from {offset}");
            }
        }
        for (path, slots) in [("/HALF", vec![2]), ("/DEAD", vec![3]), ("/FULL", vec![2, 3]), ("/", (2..9).collect())] {
            let mut step = |from| lookups.step(&both.ours, path.as_bytes(), from, String::new).expect("a directory");
            let mut found: Vec<usize> = (0..12).filter_map(|from| step(from).map(|(slot, _)| slot)).collect();
            found.dedup();
            assert_eq!(found, slots, "{name}: {path}");
        }
    }
}

/// What a removal frees of withheld clusters is held back and never taken again, what it frees of others is free.
#[test]
fn removed() {
    let cases = [(TAIL, [4, 5, 6, 7, 7999], 7990), (LISTED, [5, 6, 7, 9, 12], 34)];
    for (format, (sample, lowest, rest)) in in_both(cases) {
        let mut both = sample_with(format, &sample, &sample.free[..1]);
        for (path, expected) in [("/INSIDE", (1, 3)), ("/SPLIT", (3, 5)), ("/OUTSIDE", (5, 5)), ("/HALF/x", (5, 5))] {
            assert_eq!(both.delete(path), 0);
            assert_eq!(room(&both, &sample), expected, "{}: {path}", sample.name);
        }
        assert_eq!((both.remove_dir("/FULL"), both.delete("/FULL/x"), both.delete("/FULL/y")), (13, 0, 0));
        for (path, expected) in [("/FULL", (5, 7)), ("/HALF", (5, 9))] {
            assert_eq!(both.remove_dir(path), 0);
            assert_eq!(room(&both, &sample), expected, "{}: {path}", sample.name);
        }
        // The dead slots of the root take new entries, the free clusters their bytes, the lowest first.
        assert_eq!((both.create("/new", &bytes(5 * 1024 + 1)), both.create("/new", &bytes(5 * 1024))), (12, 0));
        assert_eq!((room(&both, &sample), both.chain(b"new")), ((0, 9), lowest.to_vec()));
        assert_eq!((both.create("/more", b"x"), both.make_dir("/more"), both.delete("/REST")), (12, 12, 0));
        assert_eq!(room(&both, &sample), (rest, 9));
    }
}

/// A new chain has no withheld cluster, wherever the old one was, and the old one doesn't help.
#[test]
fn replaced() {
    for (format, (sample, of_split, rest)) in in_both([(TAIL, [5, 7999], 7989), (LISTED, [5, 12], 33)]) {
        let mut both = sample_with(format, &sample, &[]);
        for path in ["/INSIDE", "/SPLIT", "/OUTSIDE", "/HALF/x", "/REST"] {
            assert_eq!(both.replace(path, b"x"), 12, "{}: {path}", sample.name);
        }
        assert_eq!((both.replace("/INSIDE", b""), room(&both, &sample)), (0, (0, 3)));
        assert_eq!((both.replace("/SPLIT", b""), room(&both, &sample)), (0, (2, 5)));
        assert_eq!((both.replace("/INSIDE", &bytes(2049)), both.replace("/INSIDE", &bytes(2048))), (12, 0));
        assert_eq!((room(&both, &sample), both.chain(b"INSIDE")), ((0, 5), of_split.to_vec()));

        let mut both = sample_with(format, &sample, &sample.free);
        assert_eq!((both.replace("/SPLIT", &bytes(3 * 1024 + 1)), both.replace("/SPLIT", &bytes(3 * 1024))), (12, 0));
        assert_eq!((room(&both, &sample), both.chain(b"SPLIT")), ((2, 2), sample.free.to_vec()));
        assert_eq!((both.replace("/INSIDE", &bytes(1025)), room(&both, &sample)), (0, (0, 5)));
        assert_eq!(both.chain(b"INSIDE"), of_split);
        assert_eq!((both.replace("/OUTSIDE", b"x"), both.replace("/OUTSIDE", b"")), (12, 0));
        assert_eq!((both.replace("/REST", b"x"), room(&both, &sample)), (0, (rest, 5)));
    }
}

/// Withheld slots take entries while no cluster is free; with none of them left the directory has to grow.
#[test]
fn slots() {
    for (format, sample) in samples() {
        let mut both = sample_with(format, &sample, &[]);
        let mut lookups = Lookups::new(format);
        for (directory, slot) in [("", 9), ("/HALF", 3), ("/DEAD", 2)] {
            let path = format!("{directory}/new");
            assert_eq!((both.create(&path, b"x"), both.make_dir(&path), both.create(&path, b"")), (12, 12, 0));
            let around = if directory.is_empty() { "/" } else { directory };
            let next = lookups.step(&both.ours, around.as_bytes(), slot, String::new).expect("a directory");
            assert_eq!(next.map(|(at, entry)| (at, entry.length)), Some((slot as usize, 0)), "{}: {path}", sample.name);
        }
        for path in ["/more", "/HALF/more", "/DEAD/more", "/FULL/new"] {
            assert_eq!((both.create(path, b""), both.make_dir(path)), (12, 12), "{}: {path}", sample.name);
        }
        assert_eq!(both.counts(), sample.counts(0));
        // A deleted entry leaves a dead slot there again.
        for path in ["/new", "/HALF/x", "/DEAD/x"] {
            assert_eq!((both.delete(path), both.create(&format!("{path}2"), b"")), (0, 0), "{}: {path}", sample.name);
        }
        assert_eq!(both.counts(), sample.counts(0));
    }
}

/// One cluster is free: it goes to the growth of a withheld directory, or to a file in a slot there, not to both.
#[test]
fn growth() {
    for (format, sample) in samples() {
        let [one, two, last] = sample.free;
        let mut both = sample_with(format, &sample, &[last]);
        assert_eq!((both.make_dir("/FULL/new"), both.create("/FULL/new", b"x")), (12, 12));
        assert_eq!((both.create("/FULL/new", b""), both.chain(b"FULL")), (0, [&sample.full[..], &[last]].concat()));
        assert_eq!((room(&both, &sample), both.create("/FULL/more", b"")), ((0, 0), 0));
        assert_eq!((both.create("/FULL/third", b""), both.make_dir("/new")), (12, 12));

        for path in ["/new", "/HALF/new", "/DEAD/new"] {
            for makes in [false, true] {
                let mut both = sample_with(format, &sample, &[last]);
                assert_eq!(both.create(path, &bytes(1025)), 12);
                assert_eq!(if makes { both.make_dir(path) } else { both.create(path, &bytes(1024)) }, 0, "{path}");
                assert_eq!((room(&both, &sample), both.create("/FULL/new", b"")), ((0, 0), 12));
                let entry = compare::find(format, &both.ours, path.as_bytes()).expect("it was created");
                assert_eq!(entry.first_cluster, last as u32, "{path}");
            }
        }

        // With the root's odd slot used it grows too: two clusters for a directory, the growth first.
        let mut both = sample_with(format, &sample, &[one, two]);
        assert_eq!((both.create("/new", b""), both.create("/file", &bytes(1025)), both.make_dir("/D")), (0, 12, 0));
        assert_eq!((room(&both, &sample), both.chain(b"D")), ((0, 0), vec![two]));
        let root = Checked::of(format, &both.ours).expect("a sound card").root;
        assert_eq!(root.chain, [&sample.root[..], &[one]].concat());
    }
}

/// The root's withheld dead slot, and a directory made in another one: `.` names its parent's withheld cluster.
#[test]
fn dead_slot_of_the_root() {
    let full = |clusters, orphaned, held| Counts { clusters, free: 0, reached: 20, orphaned, held, mended: 0 };
    for (format, (sample, full)) in in_both([(TAIL, full(8192, 7995, 120)), (LISTED, full(96, 38, 8))]) {
        // `/REST` is gone, its clusters are orphaned.
        let without_rest = |free: &[usize]| {
            let mut card = sample.card(format, free);
            let dead = Entry { mode: 0x0427, ..directory(b"REST", 2, sample.inside[1] as u32) };
            card.put(sample.root[4], 0, &dead);
            Both::new(format, card.finish())
        };
        let mut both = without_rest(&[]);
        assert_eq!((both.create("/new", b"x"), both.create("/new", b""), both.counts()), (12, 0, full));
        // The odd slot behind it is next, then the root has to grow.
        assert_eq!((both.create("/more", b""), both.create("/third", b""), both.counts()), (0, 12, full));

        let one = sample.free[0];
        let mut both = without_rest(&[one]);
        let lost = |free| Counts { free, reached: 21 - free, orphaned: full.orphaned - 1, ..full };
        assert_eq!((both.create("/new", b""), both.counts()), (0, lost(1)));
        assert_eq!((both.make_dir("/DEAD/D"), both.counts()), (0, lost(0)));
        let dot = reader::page::read(format, &both.ours, sample.page(one, 0)).expect("a readable page");
        let dot = Entry::parse(&dot);
        assert_eq!((dot.first_cluster, dot.dir_entry), (sample.dead[0] as u32, 2));
        assert_eq!((both.create("/DEAD/D/x", b""), both.remove_dir("/DEAD/D"), both.counts()), (12, 0, lost(1)));
    }
}

/// Withheld pages of files and free ones are not needed by check and changes; entries there are, and all table words.
#[test]
fn unreadable_pages() {
    let format = Format::Raw;
    // The table's page with the words of the first withheld clusters.
    for (sample, table) in [(TAIL, 80), (LISTED, 12)] {
        let Sample { root, inside, half, dead, full, .. } = sample;
        let at = |cluster, second| sample.page(cluster, second);
        let mut both = sample_with(format, &sample, &sample.free[..1]);
        let mut lookups = Lookups::new(format);
        let mut image = both.ours.clone();
        let entries = [at(half[0], 0), at(half[0], 1), at(half[1], 0), at(dead[1], 0), at(dead[1], 1), at(full[0], 1)];
        for page in entries.into_iter().chain([at(root[0], 0), at(root[4], 0), 0, table, table + 1]) {
            let ruin = |image: &mut [u8]| break_page(format, image, page);
            let answer = with_page(format, &mut image, page, ruin, |image| {
                lookups.refused(image, b"/OUTSIDE", Refusal::unreadable(page), String::new);
                same(format, image, "a needed page")
            });
            assert_eq!(answer, Err(Refusal::unreadable(page)), "{}", sample.name);
        }
        // The page after an odd directory's last entry takes the next one.
        let (orphan, free) = (sample.orphans[1].0, sample.free_words[0].0);
        let others = [at(half[1], 1), at(root[4], 1), at(orphan, 0), at(free, 1), at(inside[1], 0), at(inside[1], 1)];
        both.alter(|image| others.into_iter().for_each(|page| break_page(format, image, page)));
        assert_eq!(both.counts(), sample.counts(1));
        assert_eq!(lookups.read(&both.ours, b"/INSIDE", 0, 1024, String::new).0, Ok(1024));
        let broken = lookups.read(&both.ours, b"/INSIDE", 0, 1025, String::new).0;
        assert_eq!(broken, Err(Refusal::unreadable(at(inside[1], 0))));
        assert_eq!((both.create("/HALF/new", b""), both.create("/new", b"")), (0, 0));
        assert_eq!(both.counts(), sample.counts(1));
        assert_eq!((both.replace("/INSIDE", b"x"), room(&both, &sample)), (0, (0, 3)));
        assert_eq!((both.delete("/INSIDE"), room(&both, &sample)), (0, (1, 3)));
    }
}
