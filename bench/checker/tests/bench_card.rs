//! The check of the bench card, sound and with one thing changed.

use checker::{check, Counts, Format, Refusal};

const BOTH: [Format; 2] = [Format::Raw, Format::Plain];
/// The page of the bench card's root, and its table's and its indirect cluster's first pages.
const ROOT: usize = 20;
const TABLE: usize = 18;
const INDIRECT: usize = 16;
const FRESH: Counts = Counts { clusters: 56, free: 29, reached: 1, orphaned: 0, held: 0, mended: 0 };

/// The data of the card's pages.
#[derive(Clone)]
struct Card(Vec<[u8; 512]>);

impl Card {
    fn bench() -> Card {
        let mut card = Card(vec![[0xFF; 512]; 112]);
        let page = &mut card.0[0];
        page[..0xD0].fill(0);
        page[..28].copy_from_slice(b"Sony PS2 Memory Card Format ");
        page[0x1C..0x23].copy_from_slice(b"1.2.0.0");
        page[0x28..0x2E].copy_from_slice(&[0, 2, 2, 0, 16, 0]);
        for (place, word) in [(0x30, 56), (0x34, 10), (0x38, 30), (0x40, 6), (0x44, 5), (0x50, 8)] {
            card.word(0, place, word);
        }
        card.word(INDIRECT, 0, 9);
        (1..30).for_each(|cluster| card.word(TABLE, 4 * cluster, 0x7FFF_FFFF));
        card.entry(ROOT, 0x8427, 2, 0, b".");
        card.entry(ROOT + 1, 0x8427, 0, 0, b"..");
        card
    }

    fn word(&mut self, page: usize, place: usize, word: u32) {
        self.0[page][place..place + 4].copy_from_slice(&word.to_le_bytes());
    }

    fn entry(&mut self, page: usize, mode: u16, length: u32, first: u32, name: &[u8]) {
        self.0[page].fill(0);
        self.0[page][..2].copy_from_slice(&mode.to_le_bytes());
        self.word(page, 0x04, length);
        self.word(page, 0x10, first);
        self.0[page][0x40..0x40 + name.len()].copy_from_slice(name);
    }

    /// One more cluster for the root, and its length with it.
    fn long_root(length: u32) -> Card {
        let mut card = Card::bench();
        card.word(ROOT, 0x04, length);
        card.word(TABLE, 0, 0x8000_0001);
        card.word(TABLE, 4, 0xFFFF_FFFF);
        card
    }

    fn image(&self, format: Format) -> Vec<u8> {
        let mut image = Vec::new();
        for page in &self.0 {
            image.extend_from_slice(page);
            if format == Format::Raw {
                (0..4).for_each(|chunk| image.extend_from_slice(&code(&page[128 * chunk..][..128])));
                image.extend_from_slice(&[0; 4]);
            }
        }
        image
    }

    /// Both formats must give the same answer.
    fn answer(&self) -> Result<Counts, Refusal> {
        let [raw, plain] = BOTH.map(|format| check(format, &self.image(format)));
        assert_eq!(raw, plain);
        raw
    }
}

/// The code by the rule's own words.
fn code(chunk: &[u8]) -> [u8; 3] {
    let mut code = [0x77, 0x7F, 0x7F];
    for (index, &byte) in chunk.iter().enumerate() {
        for (place, mask) in [(0, 0x55), (1, 0x33), (2, 0x0F), (4, 0xAA), (5, 0xCC), (6, 0xF0)] {
            code[0] ^= ((byte & mask).count_ones() as u8 % 2) << place;
        }
        if byte.count_ones() % 2 == 1 {
            code[1] ^= 127 - index as u8;
            code[2] ^= index as u8;
        }
    }
    code
}

fn refused(number: u32) -> Result<Counts, Refusal> {
    Err(Refusal { number, page: None })
}

#[test]
fn fresh() {
    assert_eq!(Card::bench().answer(), Ok(FRESH));
}

#[test]
fn lengths() {
    for (format, cluster) in [(Format::Raw, 1056), (Format::Plain, 1024)] {
        let image = vec![0xFF; cluster * 65_544];
        for clusters in [0, 8, 24, 33, 57, 65_544] {
            assert_eq!(check(format, &image[..cluster * clusters]), refused(1));
        }
        for clusters in [32, 56, 8192, 65_536] {
            assert_eq!(check(format, &image[..cluster * clusters]), refused(3));
            assert_eq!(check(format, &image[..cluster * clusters + 1]), refused(1));
        }
    }
}

/// Each line: page, place and word that are changed in the bench card, and the refusal they give.
#[test]
fn words() {
    let words = [
        (0, 0x18, 0x2074_616E, 3),
        (0, 0x1C, 0x302E_3131, 4),
        (0, 0x24, 1, 4),
        (0, 0x28, 0x0001_0200, 4),
        (0, 0x2C, 0x0000_0011, 4),
        (0, 0x30, 64, 4),
        (0, 0x34, 41, 4),
        (0, 0x34, 0xFFFF_FFFF, 4),
        (0, 0x34, 2, 5),
        (0, 0x34, 0, 5),
        (0, 0x38, 0, 4),
        (0, 0x38, 31, 4),
        (0, 0x3C, 1, 4),
        (0, 0x40, 5, 4),
        (0, 0x40, 7, 4),
        (0, 0x44, 4, 4),
        (0, 0x44, 0x2000_0005, 4),
        (0, 0x50, 0, 5),
        (0, 0x50, 10, 5),
        (0, 0x50, 0xFFFF_FFFF, 5),
        (0, 0xD0, 0, 4),
        (0, 0xD0, 7, 4),
        (0, 0x14C, 0xFFFF_FFFE, 4),
        (0, 0x14C, 1, 5),
        (INDIRECT, 0, 8, 5),
        (INDIRECT, 0, 0, 5),
        (INDIRECT, 0, 10, 5),
        (TABLE, 0, 0x7FFF_FFFF, 6),
        (TABLE, 0, 0x8000_0001, 6),
        (TABLE, 0, 0xFFFF_FFFE, 6),
        (ROOT, 0x00, 0x0427, 7),
        (ROOT, 0x00, 0x8437, 7),
        (ROOT, 0x00, 0x8417, 7),
        (ROOT, 0x04, 1, 7),
        (ROOT, 0x04, 3, 6),
        (ROOT, 0x04, 0xFFFF_FFFF, 6),
        (ROOT, 0x40, 0x2E2E, 7),
        (ROOT + 1, 0x00, 0x8417, 7),
        (ROOT + 1, 0x40, 0x2E, 7),
    ];
    for (page, place, word, number) in words {
        let mut card = Card::bench();
        card.word(page, place, word);
        assert_eq!(card.answer(), refused(number), "page {page}, {place:#X}: {word:#X}");
    }
}

#[test]
fn never_judged() {
    let mut card = Card::bench();
    for (page, place) in [(0, 0x48), (0, 0x54), (0, 0xCC), (INDIRECT, 4), (TABLE, 120), (ROOT, 0x10), (ROOT + 1, 0x04)]
    {
        card.word(page, place, 0x8000_0000);
    }
    card.0[INDIRECT + 1].fill(3);
    card.0[TABLE + 1].fill(3);
    assert_eq!(card.answer(), Ok(FRESH));
}

#[test]
fn listed_blocks() {
    let mut card = Card::bench();
    // Blocks 2 and 4 hold the allocatable clusters 6 to 13 and 22 to 29, of which 22 is no longer free.
    for (place, block) in [(0xD0, 2), (0xD4, 4), (0xE0, 2), (0x14C, 6)] {
        card.word(0, place, block);
    }
    card.word(TABLE, 4 * 22, 0xFFFF_FFFF);
    assert_eq!(card.answer(), Ok(Counts { free: 13, held: 15, orphaned: 1, ..FRESH }));
}

/// Entries in the root's second cluster: mode, length, first cluster, name, and the answer's number, 0 if accepted.
#[test]
fn entries() {
    let whole = [b'a'; 32];
    let cases: [(u16, u32, u32, &[u8], u32); 22] = [
        (0x8417, 0, 0xFFFF_FFFF, b"a", 0),
        (0x8417, 0, 5, b"a", 7),
        (0x8417, 1, 5, b"a", 0),
        (0x8417, 1024, 5, b"a", 0),
        (0x8417, 1025, 5, b"a", 6),
        (0x8417, 1, 0xFFFF_FFFF, b"a", 6),
        (0x8417, 1, 0x8000_0005, b"a", 6),
        (0x8417, 1, 30, b"a", 6),
        (0x8417, 1, 6, b"a", 6),
        (0x8417, 1, 1, b"a", 6),
        (0x8437, 1, 5, b"a", 7),
        (0x8407, 1, 5, b"a", 7),
        (0x0437, 1, 5, b"..", 0),
        (0x8417, 1, 5, b"", 7),
        (0x8417, 1, 5, b".", 7),
        (0x8417, 1, 5, b"..", 7),
        (0x8417, 1, 5, b"...", 0),
        (0x8417, 1, 5, b"a/b", 7),
        (0x8417, 1, 5, b"a\x7F", 7),
        (0x8417, 1, 5, &whole, 7),
        (0x8417, 1, 5, &whole[..31], 0),
        (0x8427, 1, 5, b"a", 7),
    ];
    for (mode, length, first, name, number) in cases {
        let mut card = Card::long_root(3);
        card.word(TABLE, 20, 0xFFFF_FFFF);
        card.entry(ROOT + 2, mode, length, first, name);
        let answer = card.answer();
        assert_eq!(answer.err().map_or(0, |refusal| refusal.number), number, "{mode:#X} {length} {first:#X} {name:?}");
    }
}

#[test]
fn twins() {
    let mut card = Card::long_root(4);
    card.entry(ROOT + 2, 0x8417, 0, 0xFFFF_FFFF, b"twin\0one");
    card.entry(ROOT + 3, 0x8417, 0, 0xFFFF_FFFF, b"twin\0other");
    assert_eq!(card.answer(), refused(7));
    card.entry(ROOT + 3, 0x8417, 0, 0xFFFF_FFFF, b"Twin");
    assert_eq!(card.answer(), Ok(Counts { free: 28, reached: 2, ..FRESH }));
    card.entry(ROOT + 3, 0x0417, 0, 0, b"twin");
    assert_eq!(card.answer(), Ok(Counts { free: 28, reached: 2, ..FRESH }));
}

/// Directories inside each other: seven below the root, not eight, and the eighth is refused before its chain.
#[test]
fn depth() {
    for (deepest, number) in [(7, 0), (8, 7)] {
        let mut card = Card::long_root(3);
        let mut parent = ROOT + 2;
        for cluster in 2..2 + deepest {
            card.entry(parent, 0x8427, 3, 2 * cluster, b"down");
            let page = ROOT + 4 * cluster as usize;
            card.word(TABLE, 8 * cluster as usize, 0x8000_0001 + 2 * cluster);
            card.word(TABLE, 8 * cluster as usize + 4, 0xFFFF_FFFF);
            card.entry(page, 0x8427, 0, 0, b".");
            card.entry(page + 1, 0x8427, 0, 0, b"..");
            card.entry(page + 2, 0x0427, 0, 0, b"");
            parent = page + 2;
        }
        let answer = card.answer();
        assert_eq!(answer.err().map_or(0, |refusal| refusal.number), number, "{answer:?}");
    }
}

/// A flip in each chunk of each needed page counts once; two in one chunk name the page; other pages aren't needed.
#[test]
fn flips() {
    let needed = [0, INDIRECT, INDIRECT + 1, TABLE, TABLE + 1, ROOT, ROOT + 1];
    let mut image = Card::bench().image(Format::Raw);
    for page in 0..112 {
        image[528 * page + 100] ^= 0x10;
        let times = if needed.contains(&page) { 1 } else { 0 };
        assert_eq!(check(Format::Raw, &image), Ok(Counts { mended: times, ..FRESH }), "page {page}");
        image[528 * page + 101] ^= 0x10;
        let refusal = Refusal { number: 2, page: Some(page) };
        let expected = if times == 1 { Err(refusal) } else { Ok(FRESH) };
        assert_eq!(check(Format::Raw, &image), expected, "page {page}");
        image[528 * page + 100] ^= 0x10;
        image[528 * page + 101] ^= 0x10;
    }
    for page in needed {
        for (chunk, place) in [3, 200, 300, 512 + 10].into_iter().enumerate() {
            image[528 * page + place] ^= 1 << chunk;
        }
    }
    assert_eq!(check(Format::Raw, &image), Ok(Counts { mended: 28, ..FRESH }));
}
