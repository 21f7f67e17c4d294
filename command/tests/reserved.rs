//! The reserved tail of the card of 8,192 clusters: what a change can take and what is held back, beside the independent
//! reader.

mod common;

use common::{in_wrapper, Folder, USUAL};
use ps2card::{Card, Counts};
use reader::build::listed::fresh_with;
use reader::build::{self, directory, file, Assembly, Layout};
use reader::entry::NO_CLUSTER;
use reader::page::DATA;
use reader::{Format, Refusal};

/// Counts of a card on which nothing is orphaned.
fn counts(clusters: u32, free: usize, reached: usize, held: usize) -> Counts {
    Counts { clusters, free, reached, orphaned: 0, held, mended: 0 }
}

/// A card in a folder, and what the reader makes of it.
struct Both {
    format: Format,
    folder: Folder,
    image: Vec<u8>,
}

impl Both {
    /// The command, the wrapper and the reader tell these counts, of the same image.
    #[track_caller]
    fn have(&self, free: usize, reached: usize, held: usize) {
        assert!(self.folder.read("card") == self.image);
        let of_table = format!("free {free}\nreached {reached}\norphaned 0\nheld {held}\nmended 0\n");
        let told = format!("card: OK, {free} KB free\ncard 8192\n{of_table}");
        assert_eq!(self.folder.run(&["check", "card"]).text(), told);
        let listing = self.folder.run(&["list", "card"]).text();
        assert!(listing.starts_with(&format!("card 8192\n{of_table}")), "{listing}");
        assert_eq!(listing, reader::list(self.format, &self.image, 0));
        let card = Card::new(in_wrapper(self.format), &self.image[..]);
        assert_eq!(card.check(), Ok(counts(8_192, free, reached, held)));
    }

    /// A change by the command and by the reader.
    #[track_caller]
    fn change(&mut self, words: &[&str], by_reader: impl FnOnce(Format, &mut [u8]) -> Result<(), Refusal>) {
        let given = self.folder.run(words);
        match by_reader(self.format, &mut self.image) {
            Ok(()) => drop(given.done()),
            Err(refusal) => given.refused(refusal),
        }
        assert!(self.folder.read("card") == self.image, "{words:?}");
    }

    #[track_caller]
    fn create(&mut self, path: &str, bytes: &[u8]) {
        self.folder.write("bytes", bytes);
        let time = build::usual_time();
        self.change(&["create", "card", path, "bytes", "--stamp", USUAL], |format, image| {
            reader::create(format, image, path.as_bytes(), &time, bytes)
        });
    }
}

/// A file that needs exactly what is free goes on, one byte more does not, and what comes back can be taken again.
#[test]
fn filled_to_the_limit() {
    for format in Format::BOTH {
        let folder = Folder::of(format);
        folder.run(&["new", "card", "--stamp", USUAL]).done();
        let mut both = Both { format, folder, image: build::standard(format) };
        both.have(7_999, 1, 135);
        // The root grows by a cluster.
        let bytes: Vec<u8> = (0..7_998 * 1024 + 1).map(|place| (place / 1024 * 31 + place % 251) as u8).collect();
        both.create("/A", &bytes);
        both.have(7_999, 1, 135);
        both.folder.run(&["create", "card", "/A", "bytes"]).refused(Refusal::number(12));
        both.create("/A", &bytes[1..]);
        both.have(0, 8_000, 135);
        assert!(both.folder.run(&["read", "card", "/A"]).done() == bytes[1..]);
        // An entry that needs no cluster still goes on; nothing else does.
        both.folder.run(&["mkdir", "card", "/D"]).refused(Refusal::number(12));
        both.create("/empty", b"");
        both.folder.run(&["create", "card", "/more", "/dev/null"]).refused(Refusal::number(12));
        both.have(0, 8_000, 135);
        both.change(&["rm", "card", "/A"], |format, image| reader::delete(format, image, b"/A"));
        both.have(7_998, 2, 135);
        both.create("/B", &bytes[1..]);
        both.have(0, 8_000, 135);
    }
}

/// A card with chains in the tail, as one that was filled without regard to it: `/F` in clusters 7,999, 8,000 and 8,134,
/// the root's second cluster at 8,001, `/D` with one file in 8,002 and 8,003.
fn in_the_tail(format: Format) -> Vec<u8> {
    let mut card = Assembly::new(format, Layout::standard());
    card.directory(&[0, 8_001], 4);
    card.put(8_001, 0, &file(b"F", 2_500, 7_999));
    card.put(8_001, 1, &directory(b"D", 3, 8_002));
    card.directory(&[8_002, 8_003], 3);
    card.put(8_003, 0, &file(b"old", 0, NO_CLUSTER));
    let chain = [7_999, 8_000, 8_134];
    card.chain(&chain);
    for (number, &cluster) in chain.iter().enumerate() {
        for second in 0..2 {
            card.write(card.page(cluster, second), &[(10 * number + second) as u8; DATA]);
        }
    }
    card.finish()
}

/// What stands in the tail is read, and its free slots are used; clusters that come back there are held back.
#[test]
fn chains_in_the_tail() {
    for format in Format::BOTH {
        let image = in_the_tail(format);
        let folder = Folder::of(format);
        folder.write("card", &image);
        let mut both = Both { format, folder, image };
        both.have(7_998, 7, 130);
        let bytes: Vec<u8> = [0, 1, 10, 11, 20].into_iter().flat_map(|byte| [byte; DATA]).take(2_500).collect();
        assert_eq!(both.folder.run(&["read", "card", "/F"]).done(), bytes);
        // The second page of the directory's last cluster, and then a dead slot.
        both.create("/D/new", b"");
        both.change(&["rm", "card", "/D/old"], |format, image| reader::delete(format, image, b"/D/old"));
        both.create("/D/other", b"");
        both.have(7_998, 7, 130);
        // The new bytes go below the limit; of the old clusters one lies there too.
        both.folder.write("bytes", b"x");
        let time = build::usual_time();
        both.change(&["replace", "card", "/F", "bytes", "--stamp", USUAL], |format, image| {
            reader::replace(format, image, b"/F", &time, b"x")
        });
        both.have(7_998, 5, 132);
        for path in ["/D/new", "/D/other"] {
            both.change(&["rm", "card", path], |format, image| reader::delete(format, image, path.as_bytes()));
        }
        both.change(&["rmdir", "card", "/D"], |format, image| reader::remove_dir(format, image, b"/D"));
        both.have(7_998, 3, 134);
    }
}

/// Where a card has a tail: with 8,192 clusters and from index 8,000 on, whatever the list of bad blocks says. Block 200
/// has clusters 1,559 to 1,566, which are held back with it.
#[test]
fn which_cards() {
    let fresh = |format: Format, layout: Layout, bad_block: u32| {
        Card::new(in_wrapper(format), fresh_with(format, layout, &[bad_block]).finish()).check()
    };
    for format in Format::BOTH {
        let ends = [(1_usize, 0, 0), (7_999, 0, 8), (8_000, 0, 8), (8_001, 1, 9), (8_002, 2, 10), (8_135, 135, 143)];
        for (alloc_end, tail, with_block) in ends {
            let standard = Layout::standard();
            let table = standard.table[..alloc_end.div_ceil(256)].to_vec();
            for (bad_block, held) in [(u32::MAX, tail), (200, with_block)] {
                let told = fresh(format, Layout { alloc_end, table: table.clone(), ..standard.clone() }, bad_block);
                assert_eq!(told, Ok(counts(8_192, alloc_end - 1 - held, 1, held)), "{alloc_end} {bad_block}");
            }
        }
        for clusters in [8_176, 8_184, 8_200, 16_384, 65_536] {
            let layout = Layout::widest(clusters);
            let end = layout.alloc_end;
            assert!(end > 8_000);
            assert_eq!(fresh(format, layout, u32::MAX), Ok(counts(clusters as u32, end - 1, 1, 0)));
        }
        let end = Layout::widest(8_192).alloc_end;
        let told = fresh(format, Layout::widest(8_192), u32::MAX);
        assert_eq!((told, end > 8_135), (Ok(counts(8_192, 7_999, 1, end - 8_000)), true));
    }
}
