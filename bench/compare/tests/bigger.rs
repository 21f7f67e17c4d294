//! Cards of up to 65,536 clusters: their lengths, tables whose names reach into the indirect cluster's second page, and
//! chains over all clusters up to the last. One image of 64 MiB serves for many comparisons, each with a page altered.

mod common;

use common::{same, with_page, Answer};
use reader::build::scribble::break_page;
use reader::build::{directory, file, fresh, Assembly, Layout};
use reader::card::{is_allowed, END_MARK, MOST_CLUSTERS, USED};
use reader::page::{self, put_word};
use reader::rng::Rng;
use reader::{Format, Refusal};

fn refused(number: u8) -> Answer {
    Err(Refusal::number(number))
}

/// The counts of a card where nothing is orphaned and no chain is in the tail.
fn counts(layout: &Layout, reached: usize) -> Answer {
    Ok(layout.counts(reached))
}

/// The answer with one word of a page set; the page is put back.
fn with_word(format: Format, image: &mut [u8], page: usize, at: usize, value: u32, what: &str) -> Answer {
    let change = |image: &mut [u8]| {
        let mut data = page::read(format, image, page).expect("a readable page");
        put_word(&mut data, at, value);
        page::write(format, image, page, &data);
    };
    with_page(format, image, page, change, |image| same(format, image, &format!("{what}, {value:#x}")))
}

#[test]
fn lengths() {
    for (format, clusters) in
        Format::BOTH.into_iter().flat_map(|format| [8192, 8200, 65_528, 65_536].map(|clusters| (format, clusters)))
    {
        let bytes = format.cluster_bytes();
        let accepted = counts(&Layout::fresh(clusters), 1);
        let mut image = fresh(format, clusters);
        image.resize((clusters + 9) * bytes, 0xFF);
        for near in [clusters - 8, clusters - 1, clusters, clusters + 1, clusters + 8] {
            for length in [near * bytes - 1, near * bytes, near * bytes + 1] {
                let expected = match length == near * bytes && is_allowed(near) {
                    true if near == clusters => accepted,
                    // The superblock has another N.
                    true => refused(4),
                    false => refused(1),
                };
                let answer = same(format, &image[..length], &format!("card of {clusters}, {length} bytes"));
                assert_eq!(answer, expected, "{format:?}, card of {clusters}, {length} bytes");
            }
        }
    }
}

/// The card with the most allocatable clusters, 65,263; its 255 table clusters lie in no order, and 127 of them are
/// named by the indirect cluster's second page.
fn scattered() -> Layout {
    let mut layout = Layout::widest(MOST_CLUSTERS);
    let mut names: Vec<usize> = (1..layout.alloc_offset).collect();
    Rng::new(255).shuffle(&mut names);
    layout.indirect = names[0];
    layout.table = names[1..].to_vec();
    assert_eq!((layout.table.len(), layout.alloc_end), (255, 65_263));
    layout
}

/// The page of the indirect cluster with a name, and the name's place there.
fn name_place(layout: &Layout, index: usize) -> (usize, usize) {
    (2 * layout.indirect + index / 128, 4 * (index % 128))
}

#[test]
fn table_names() {
    let layout = scattered();
    for format in Format::BOTH {
        let mut image = Assembly::with_root(format, layout.clone()).finish();
        let accepted = counts(&layout, 1);
        assert_eq!(same(format, &image, "all names"), accepted);
        let mut named = |index: usize, value: usize| {
            let (page, at) = name_place(&layout, index);
            with_word(format, &mut image, page, at, value as u32, &format!("name {index}"))
        };
        let other = |index: usize, shift: usize| layout.table[(index + shift) % 255];
        for index in [0, 1, 127, 128, 129, 200, 253, 254] {
            let own = layout.table[index];
            let out_of_range =
                [0, 257, 258, MOST_CLUSTERS, MOST_CLUSTERS | own, USED as usize | own, END_MARK as usize];
            let taken = [layout.indirect, other(index, 1), other(index, 127), other(index, 128), other(index, 254)];
            for value in out_of_range.into_iter().chain(taken) {
                assert_eq!(named(index, value), refused(5), "{format:?}, name {index}: {value}");
            }
        }
        // The last word names nothing.
        for value in [0, layout.indirect, layout.table[3], END_MARK as usize] {
            assert_eq!(named(255, value), accepted, "{format:?}, word 255: {value}");
        }
        // The root's word is then taken from a table cluster that another name was for: there it is free.
        let mut swapped = layout.clone();
        swapped.table.swap(0, 200);
        let mut card = Assembly::with_root(format, swapped.clone());
        card.indirect.swap(0, 200);
        assert_eq!(same(format, &card.finish(), "names 0 and 200 swapped"), refused(6));
    }
}

/// Both pages of the indirect cluster before its names, all names before the table's pages, these in the names' order.
#[test]
fn unreadable_tables() {
    let (format, layout) = (Format::Raw, scattered());
    let sound = Assembly::with_root(format, layout.clone()).finish();
    let [first, second] = [2 * layout.indirect, 2 * layout.indirect + 1];
    let table = |index: usize| 2 * layout.table[index];
    let mut image = sound.clone();
    let mut broken = |pages: &[usize], bad_name: Option<usize>, expected: Answer| {
        if let Some(index) = bad_name {
            let (page, at) = name_place(&layout, index);
            let mut data = page::read(format, &image, page).expect("a readable page");
            put_word(&mut data, at, 0);
            page::write(format, &mut image, page, &data);
        }
        pages.iter().for_each(|&page| break_page(format, &mut image, page));
        let what = format!("pages {pages:?}, name {bad_name:?}");
        assert_eq!(same(format, &image, &what), expected, "{what}");
        for page in pages.iter().copied().chain([first, second]) {
            image[format.place(page)].copy_from_slice(&sound[format.place(page)]);
        }
    };
    let unreadable = |page| Err(Refusal::unreadable(page));
    broken(&[second], None, unreadable(second));
    broken(&[second, first], None, unreadable(first));
    broken(&[second], Some(0), unreadable(second));
    broken(&[first], Some(254), unreadable(first));
    for index in [0, 127, 128, 254] {
        broken(&[table(index)], None, unreadable(table(index)));
        broken(&[table(index) + 1], None, unreadable(table(index) + 1));
        broken(&[table(index)], Some(254), refused(5));
        broken(&[table(index)], Some(128), refused(5));
    }
    broken(&[table(128), table(127) + 1], None, unreadable(table(127) + 1));
    broken(&[table(254), table(128) + 1], None, unreadable(table(128) + 1));
    broken(&[2 * layout.alloc_offset, table(254) + 1], None, unreadable(table(254) + 1));
    assert_eq!(same(format, &image, "every page put back"), counts(&layout, 1));
}

/// 128 names end with the first page, 129 need one of the second; its page is read for both.
#[test]
fn border_of_the_second_page() {
    for (format, (clusters, tables)) in
        Format::BOTH.into_iter().flat_map(|format| [(32_920, 128), (32_928, 129)].map(|card| (format, card)))
    {
        let layout = Layout::fresh(clusters);
        assert_eq!(layout.table.len(), tables);
        let mut image = fresh(format, clusters);
        let accepted = counts(&layout, 1);
        assert_eq!(same(format, &image, "fresh card"), accepted);
        for value in [0, 8, 9, END_MARK] {
            let (page, at) = name_place(&layout, 128);
            let expected = if tables == 129 { refused(5) } else { accepted };
            assert_eq!(with_word(format, &mut image, page, at, value, "name 128"), expected, "{format:?} {value}");
        }
        // A plain page is then just another one: the damage is in its first word.
        break_page(format, &mut image, 17);
        let expected = match (format, tables) {
            (Format::Raw, _) => Err(Refusal::unreadable(17)),
            (Format::Plain, 128) => accepted,
            _ => refused(5),
        };
        assert_eq!(same(format, &image, "second page"), expected, "{format:?}");
    }
}

/// A table of 256 clusters would leave too few names below alloc_offset: some name is always wrong.
#[test]
fn no_table_of_256() {
    for format in Format::BOTH {
        for (alloc_offset, alloc_end) in [(239, 65_281), (3, 65_517), (1, 65_519), (0, 65_520)] {
            let below: Vec<usize> = (2..alloc_offset).collect();
            let table: Vec<usize> = (0..256).map(|index| *below.get(index).unwrap_or(&2)).collect();
            let layout = Layout { alloc_offset, alloc_end, indirect: 1, table, ..Layout::widest(MOST_CLUSTERS) };
            let card = Assembly::with_root(format, layout);
            assert_eq!(same(format, &card.finish(), "256 names"), refused(5), "{format:?}, offset {alloc_offset}");
        }
    }
}

const LAST: usize = 65_262;

/// On the widest card: two files and a directory at its end, a file whose clusters lie 64, 128 and more before the
/// last, and one whose clusters lie 8,192 apart.
fn high_card(format: Format) -> (Layout, Vec<u8>, usize) {
    let mut card = Assembly::new(format, scattered());
    let at_end = vec![LAST, LAST - 1, LAST - 2, 65_216, 65_215, 32_768, 32_767, 8192, 8191, 8135];
    let near = [64, 128, 256, 512, 1024, 2048, 4096, 16_384, 32_768].map(|shift| LAST - shift).to_vec();
    let far = (0..8).map(|times| LAST - 7 - 8192 * times).collect();
    let files: [(&[u8], Vec<usize>); 4] = [(b"end", at_end), (b"near", near), (b"far", far), (b"one", vec![LAST - 5])];
    card.directory(&[0, 1, 2, 3], 7);
    for (slot, (name, chain)) in (2..).zip(&files) {
        card.put(slot / 2, slot % 2, &file(name, 1024 * chain.len() as u32, chain[0] as u32));
        card.chain(chain);
    }
    card.put(3, 0, &directory(b"D", 3, LAST as u32 - 3));
    card.directory(&[LAST - 3, LAST - 4], 0);
    card.put(LAST - 4, 0, &file(b"empty", 0, END_MARK));
    let reached = 4 + files.iter().map(|(_, chain)| chain.len()).sum::<usize>() + 2;
    (card.layout.clone(), card.finish(), reached)
}

#[test]
fn last_clusters() {
    for format in Format::BOTH {
        let (layout, mut image, reached) = high_card(format);
        assert_eq!(same(format, &image, "clusters at the end"), counts(&layout, reached));
        let end = layout.alloc_end;
        // The second cluster of `end`, and the first one of the directory: what they lead to.
        for (cluster, own) in [(LAST - 1, LAST - 2), (LAST - 3, LAST - 4)] {
            let (page, at) = (2 * layout.table[cluster / 256] + cluster % 256 / 128, 4 * (cluster % 128));
            let wrong = [end, end + 1, 65_472, 65_535, MOST_CLUSTERS | own, cluster, LAST, LAST - 64, LAST - 6, 0];
            let links = wrong.map(|next| USED | next as u32);
            for value in links.into_iter().chain([END_MARK, own as u32]) {
                let answer = with_word(format, &mut image, page, at, value, &format!("word {cluster}"));
                assert_eq!(answer, refused(6), "{format:?}, word {cluster}: {value:#x}");
            }
        }
        // The first cluster of `one`: free ones, others', none.
        let page = 2 * layout.alloc_offset + 5;
        for first in [LAST, LAST - 1, LAST - 7, LAST - 64, LAST - 6, end, 65_535, MOST_CLUSTERS | (LAST - 5)] {
            let answer = with_word(format, &mut image, page, 0x10, first as u32, "first cluster");
            assert_eq!(answer, refused(6), "{format:?}, first cluster {first}");
        }
        assert_eq!(same(format, &image, "every page put back"), counts(&layout, reached));
    }
}

/// One file over all clusters that the root leaves, in no order: each is marked once, and a link back to any is 6.
#[test]
fn every_cluster() {
    for format in Format::BOTH {
        let mut rng = Rng::new(65_263);
        let mut card = Assembly::new(format, scattered());
        let layout = card.layout.clone();
        let mut chain: Vec<usize> = (2..layout.alloc_end).collect();
        rng.shuffle(&mut chain);
        card.directory(&[0, 1], 3);
        card.put(1, 0, &file(b"ALL", 1024 * chain.len() as u32 - 1023, chain[0] as u32));
        card.chain(&chain);
        let mut image = card.finish();
        let all = counts(&layout, layout.alloc_end);
        assert_eq!(same(format, &image, "one file"), all);
        for _ in 0..20 {
            let from = rng.below(chain.len());
            let (cluster, back) = (chain[from], chain[rng.between(0, from)]);
            let (page, at) = (2 * layout.table[cluster / 256] + cluster % 256 / 128, 4 * (cluster % 128));
            let what = format!("word {cluster} of all");
            let answer = with_word(format, &mut image, page, at, USED | back as u32, &what);
            assert_eq!(answer, refused(6), "{format:?}, {what} leads to {back}");
        }
        assert_eq!(same(format, &image, "every page put back"), all);
    }
}
