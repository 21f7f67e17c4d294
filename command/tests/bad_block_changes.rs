//! Changes, copies and conversions of cards that list bad blocks. The numbers here are reckoned by hand.

mod common;

use common::{Folder, USUAL, USUAL_LISTED};
use reader::build::listed::fresh_with;
use reader::build::{directory, file, Assembly, Layout};
use reader::entry::NO_CLUSTER;
use reader::page::{self, DATA};
use reader::Format::{Plain, Raw};
use reader::{sha256, Format, Refusal};

const END: u32 = 0xFFFF_FFFF;
const FREE: u32 = 0x7FFF_FFFF;

/// The bench card with these blocks listed. Of its allocatable clusters 6 to 13 are block 2, 14 to 21 block 3, 22 to 29
/// block 4.
fn listing(format: Format, blocks: &[u32]) -> Assembly {
    fresh_with(format, Layout::bench(), blocks)
}

/// A folder with a card.
struct At {
    folder: Folder,
    format: Format,
}

impl At {
    fn of(card: Assembly) -> At {
        let (format, folder) = (card.format, Folder::of(card.format));
        folder.write("card", &card.finish());
        At { folder, format }
    }

    /// What `check` tells of a bench card, with nothing orphaned.
    #[track_caller]
    fn have(&self, free: usize, reached: usize, held: usize) {
        let counts = format!("card 56\nfree {free}\nreached {reached}\norphaned 0\nheld {held}\nmended 0\n");
        assert_eq!(self.folder.run(&["check", "card"]).text(), format!("card: OK, {free} KB free\n{counts}"));
    }

    #[track_caller]
    fn run(&self, words: &[&str]) -> Vec<u8> {
        self.folder.run(words).done()
    }

    /// It is refused, and the card stays.
    #[track_caller]
    fn refused(&self, words: &[&str], number: u8) {
        let before = self.folder.read("card");
        self.folder.run(words).refused(Refusal::number(number));
        assert!(self.folder.read("card") == before);
    }

    /// The words of a bench card's table, from its cluster 9.
    fn table(&self) -> Vec<u32> {
        let image = self.folder.read("card");
        let data = page::read(self.format, &image, 18).expect("a readable page");
        data.chunks(4).map(|word| page::word(word, 0)).take(30).collect()
    }

    /// The stored bytes of a block.
    fn block(&self, block: usize) -> Vec<u8> {
        let bytes = 8 * self.format.cluster_bytes();
        self.folder.read("card")[bytes * block..][..bytes].to_vec()
    }

    /// A field of an entry, as `find` prints it.
    #[track_caller]
    fn field(&self, path: &str, name: &str) -> String {
        let text = self.folder.run(&["find", "card", path]).text();
        let line = text.lines().find_map(|line| line.strip_prefix(&format!("{name} "))).map(str::to_string);
        line.unwrap_or_else(|| panic!("no {name} in {text}"))
    }
}

/// A file that needs just what is free steps over the bad block; one byte more is refused. What comes back can be taken
/// again, and no byte of the block changes.
#[test]
fn over_a_bad_block() {
    for format in Format::BOTH {
        let at = At::of(listing(format, &[2]));
        let block = at.block(2);
        at.have(21, 1, 8);
        // The root grows by a cluster.
        let bytes: Vec<u8> = (0..20 * 1024 + 1).map(|place| (place / 1024 * 31 + place % 251) as u8).collect();
        at.folder.write("more", &bytes);
        at.folder.write("just", &bytes[1..]);
        at.refused(&["create", "card", "/A", "more"], 12);
        at.have(21, 1, 8);
        at.run(&["create", "card", "/A", "just"]);
        at.have(0, 22, 8);
        let to = |cluster: u32| 0x8000_0000 + cluster;
        let chain =
            [vec![to(1), END, to(3), to(4), to(5), to(14)], vec![FREE; 8], (15..30).map(to).collect(), vec![END]];
        assert_eq!(at.table(), chain.concat());
        assert!(at.run(&["read", "card", "/A"]) == bytes[1..] && at.block(2) == block);
        // An entry that needs no cluster still goes on; nothing else does.
        at.refused(&["mkdir", "card", "/D"], 12);
        at.run(&["create", "card", "/empty", "/dev/null"]);
        at.refused(&["create", "card", "/next", "/dev/null"], 12);
        at.run(&["rm", "card", "/A"]);
        at.have(20, 2, 8);
        at.run(&["create", "card", "/B", "just"]);
        at.have(0, 22, 8);
        assert!(at.block(2) == block);
    }
}

/// On the standard card a bad block costs its 8 clusters: none of the reserved tail stands in for them.
#[test]
fn beside_the_tail() {
    for format in Format::BOTH {
        let at = At::of(fresh_with(format, Layout::standard(), &[200]));
        // The root grows by a cluster.
        at.folder.write("more", &vec![7; 7_990 * 1024 + 1]);
        at.folder.write("just", &vec![7; 7_990 * 1024]);
        at.refused(&["create", "card", "/A", "more"], 12);
        at.run(&["create", "card", "/A", "just", "--stamp", USUAL]);
        let counts = "card 8192\nfree 0\nreached 7992\norphaned 0\nheld 143\nmended 0\n";
        assert_eq!(at.run(&["list", "card"]), format!("{counts}f 8181760 /A {USUAL_LISTED}\n").as_bytes());
        at.refused(&["mkdir", "card", "/D"], 12);
        at.run(&["rm", "card", "/A"]);
        let counts = "card 8192\nfree 7990\nreached 2\norphaned 0\nheld 143\nmended 0\n";
        assert_eq!(at.run(&["list", "card"]), counts.as_bytes());
    }
}

/// A save goes in by `put` and comes out again; its directory and what that grows by step over the block too.
#[test]
fn a_save_in_and_out() {
    for format in Format::BOTH {
        // Clusters 1 to 5 are below the bad blocks, 22 to 29 above them.
        let at = At::of(listing(format, &[3, 2, 3]));
        at.have(13, 1, 16);
        std::fs::create_dir(at.folder.path("SAVE")).expect("a folder");
        at.folder.write("SAVE/a", &[7; 1_025]);
        at.folder.write("SAVE/b", &[8; 100]);
        at.run(&["put", "card", "SAVE", "--stamp", USUAL]);
        // The root's growth is 1, the directory 2 and 3, /SAVE/a 4 and 5, and /SAVE/b 22.
        let firsts = ["/SAVE", "/SAVE/a", "/SAVE/b"].map(|path| at.field(path, "first"));
        assert_eq!(firsts, ["2", "4", "22"]);
        at.have(7, 7, 16);
        at.run(&["mkdir", "card", "/D"]);
        assert_eq!((at.field("/D", "first"), at.field("/", "length")), ("23".to_string(), "4".to_string()));
        at.have(6, 8, 16);
        at.run(&["get", "card", "/SAVE", "out"]);
        assert_eq!((at.folder.read("out/a"), at.folder.read("out/b")), (vec![7; 1_025], vec![8; 100]));
        // A save that is one cluster too large goes in with no part of it.
        std::fs::create_dir(at.folder.path("MORE")).expect("a folder");
        at.folder.write("MORE/a", &[1; 3 * 1024 + 1]);
        at.refused(&["put", "card", "MORE"], 12);
        at.folder.write("MORE/a", &[1; 3 * 1024]);
        at.run(&["put", "card", "MORE"]);
        at.have(0, 14, 16);
        assert_eq!(at.table()[6..22], [FREE; 16]);
    }
}

/// A card that was filled before block 2 went bad: `/F` in clusters 5, 6, 7 and 20, `/D` in 8 and 9 with the file `old`.
fn worn(format: Format, blocks: &[u32]) -> Assembly {
    let mut card = listing(format, blocks);
    card.directory(&[0, 1], 4);
    card.put(1, 0, &file(b"F", 4_000, 5));
    card.put(1, 1, &directory(b"D", 3, 8));
    card.directory(&[8, 9], 3);
    card.put(9, 0, &file(b"old", 0, NO_CLUSTER));
    let chain = [5, 6, 7, 20];
    card.chain(&chain);
    for (number, &cluster) in chain.iter().enumerate() {
        (0..2).for_each(|second| card.write(card.page(cluster, second), &[(10 * number + second) as u8; DATA]));
    }
    card
}

/// What stands in a bad block is read as anywhere, and its free slots are used; what comes back there is held back.
#[test]
fn chains_in_a_bad_block() {
    for format in Format::BOTH {
        let at = At::of(worn(format, &[2]));
        at.have(18, 8, 4);
        let bytes: Vec<u8> = [0, 1, 10, 11, 20, 21, 30, 31].into_iter().flat_map(|byte| [byte; DATA]).collect();
        assert_eq!(at.run(&["read", "card", "/F"]), bytes[..4_000]);
        // The second page of the directory's last cluster, and then a dead slot: no cluster is taken.
        at.run(&["create", "card", "/D/new", "/dev/null"]);
        at.run(&["rm", "card", "/D/old"]);
        at.run(&["create", "card", "/D/other", "/dev/null"]);
        assert_eq!(at.run(&["step", "card", "/D", "0"]), b"slot 2 other\n");
        assert_eq!(at.run(&["step", "card", "/D", "3"]), b"slot 3 new\n");
        at.have(18, 8, 4);
        // Growth goes out of the block: cluster 2.
        at.run(&["create", "card", "/D/third", "/dev/null"]);
        assert_eq!(
            at.table()[2..10],
            [END, FREE, FREE, 0x8000_0006, 0x8000_0007, 0x8000_0014, 0x8000_0009, 0x8000_0002]
        );
        at.have(17, 9, 4);
        // The new bytes go to cluster 3; of the old clusters 5 and 20 are free again, 6 and 7 held back.
        at.folder.write("bytes", b"x");
        at.run(&["replace", "card", "/F", "bytes"]);
        assert_eq!((at.field("/F", "first"), at.table()[5..8].to_vec()), ("3".to_string(), vec![6, 7, 20]));
        at.have(18, 6, 6);
        at.run(&["rm", "-r", "card", "/D"]);
        at.have(19, 3, 8);
        at.run(&["rm", "card", "/F"]);
        at.have(20, 2, 8);
    }
}

/// `verify` and `compare` go by what stands on the card: the list is no part of a tree.
#[test]
fn looks_at_worn_cards() {
    for format in Format::BOTH {
        let at = At::of(worn(format, &[2, 4]));
        at.folder.write("good", &worn(format, &[]).finish());
        let bytes: Vec<u8> = [0, 1, 10, 11, 20, 21, 30, 31].into_iter().flat_map(|byte| [byte; DATA]).collect();
        let sums = format!("{}  F\n{}  D/old\n", sha256::hex(&bytes[..4_000]), sha256::hex(b""));
        assert_eq!([at.run(&["verify", "card"]), at.run(&["verify", "good"])], [sums.as_bytes(); 2]);
        assert_eq!(at.run(&["compare", "card", "good"]), b"the same: 2 files, 2 directories\n");
    }
}

/// The list goes along into the other format, and back.
#[test]
fn converted_cards() {
    let at = At::of(worn(Raw, &[END, 2, END, 4, 6]));
    at.run(&["convert", "card", "plain", "--to-plain"]);
    at.run(&["convert", "plain", "again", "--to-raw"]);
    let counts = "card 56\nfree 10\nreached 8\norphaned 0\nheld 12\nmended 0\n";
    for (name, option) in [("card", None), ("plain", Some("--plain")), ("again", None)] {
        let words: Vec<&str> = ["list", name].into_iter().chain(option).collect();
        let entries = ["f 4000 /F", "d 3 /D", "f 0 /D/old"].map(|entry| format!("{entry} {USUAL_LISTED}\n"));
        assert_eq!(at.run(&words), format!("{counts}{}", entries.concat()).as_bytes());
        assert_eq!(at.folder.read(name)[0xD0..0x150], at.folder.read("card")[0xD0..0x150]);
    }
    let words = at.run(&["compare", "card", "plain", "--plain-b"]);
    assert_eq!(words, b"the same: 2 files, 2 directories\n");
    let plain = At::of(worn(Plain, &[END, 2, END, 4, 6]));
    assert!(plain.folder.read("card") == at.folder.read("plain"));
}

/// Pages of a bad block that nothing uses may be unreadable: changes go on beside them and leave them so. Only the
/// conversion needs every page of the image.
#[test]
fn unreadable_block() {
    let at = At::of(listing(Raw, &[2]));
    let mut image = at.folder.read("card");
    image[528 * 33..][..528 * 15].fill(0);
    at.folder.write("card", &image);
    at.have(21, 1, 8);
    let block = at.block(2);
    at.folder.write("bytes", &[5; 20 * 1024]);
    at.run(&["create", "card", "/A", "bytes"]);
    assert_eq!(at.run(&["read", "card", "/A"]), [5; 20 * 1024]);
    assert!(at.block(2) == block);
    at.folder.run(&["convert", "card", "plain", "--to-plain"]).refused(Refusal::unreadable(33));
}
