//! Cards that only this comparison needs: the full card of PCSX2, and cards of many entries.

use std::process::Command;

use reader::build::{crowded_like, directory, file, Assembly, Layout};
use reader::card::{END_MARK, MOST_CLUSTERS};
use reader::content::visit;
use reader::rng::Rng;
use reader::tree::Checked;
use reader::{to_plain, Counts, Format};

fn testdata(name: &str) -> String {
    format!("{}/../reader/testdata/{name}", env!("CARGO_MANIFEST_DIR"))
}

/// The full card PCSX2 wrote, unpacked; it is raw, and made plain by the reader.
pub fn full(format: Format) -> Vec<u8> {
    let xz = Command::new("xz").args(["-dc", &testdata("full-small.ps2.xz")]).output().expect("xz runs");
    assert!(xz.status.success(), "xz unpacks the full card");
    written_in(format, xz.stdout)
}

/// The small card PCSX2 wrote, likewise.
pub fn bench_sample(format: Format) -> Vec<u8> {
    written_in(format, std::fs::read(testdata("bench-sample.ps2")).expect("the sample is there"))
}

fn written_in(format: Format, raw: Vec<u8>) -> Vec<u8> {
    if format == Format::Raw {
        return raw;
    }
    let mut plain = vec![0; raw.len() / Format::Raw.page_bytes() * Format::Plain.page_bytes()];
    to_plain(&raw, &mut plain).expect("PCSX2 wrote readable pages");
    plain
}

/// What PCSX2 read at one path of a card.
#[derive(Clone, Debug)]
pub struct Recorded {
    pub path: String,
    pub mode: u16,
    pub attribute: u32,
    pub created: [u8; 8],
    pub modified: [u8; 8],
    pub length: u32,
    pub first_cluster: u32,
    /// The SHA-256 of a file's bytes; a directory has none.
    pub sum: Option<String>,
}

impl Recorded {
    fn parse(line: &str) -> Recorded {
        let fields: Vec<&str> = line.split(' ').collect();
        let hex = |text| u32::from_str_radix(text, 16).expect("a word in hexadecimal");
        let time = |text| u64::from_str_radix(text, 16).expect("eight bytes in hexadecimal").to_be_bytes();
        Recorded {
            path: fields[7].into(),
            mode: hex(fields[1]).try_into().expect("a half"),
            attribute: hex(fields[2]),
            created: time(fields[3]),
            modified: time(fields[4]),
            length: fields[5].parse().expect("a length"),
            first_cluster: fields[6].parse().expect("a cluster"),
            sum: fields.get(8).map(|sum| sum.to_string()),
        }
    }

    pub fn is_directory(&self) -> bool {
        self.sum.is_none()
    }
}

/// What PCSX2 read from a card, in its order: `/`, then slot order, a directory before its inside.
pub fn recorded(tree: &str) -> Vec<Recorded> {
    let text = std::fs::read_to_string(testdata(tree)).expect("the tree is there");
    text.lines().filter(|line| !line.starts_with('#')).map(Recorded::parse).collect()
}

/// The counts of a card by what PCSX2 read from it: each line's length gives its clusters. PCSX2 left no orphans and
/// took no cluster of the tail, so what isn't reached below it is free.
pub fn counts_by_tree(tree: &str, layout: &Layout) -> Counts {
    let unit = |line: &Recorded| if line.is_directory() { 2 } else { 1024 };
    let reached = recorded(tree).iter().map(|line| (line.length as usize).div_ceil(unit(line))).sum();
    layout.counts(reached)
}

/// How the names of one directory are chosen and ordered; a slow search for twins would show in one of them.
#[derive(Clone, Copy, Debug, PartialEq, Eq)]
pub enum Names {
    Ascending,
    Descending,
    Shuffled,
    /// 31 bytes that differ only in their last digits.
    Long,
}

impl Names {
    pub const ALL: [Names; 4] = [Names::Ascending, Names::Descending, Names::Shuffled, Names::Long];

    pub fn of(self, count: usize) -> Vec<Vec<u8>> {
        let digits = if count <= 10_000 { 4 } else { 6 };
        let stem = if self == Names::Long { &"a-name-with-27-equal-bytes-"[..31 - digits] } else { "entry" };
        let name = |number: usize| format!("{stem}{number:0digits$}").into_bytes();
        let mut names: Vec<Vec<u8>> = (0..count).map(name).collect();
        match self {
            Names::Ascending | Names::Long => {}
            Names::Descending => names.reverse(),
            Names::Shuffled => Rng::new(count as u64).shuffle(&mut names),
        }
        names
    }
}

/// A card with some directories in the root, full of empty files.
#[derive(Clone, Debug)]
pub struct Crowd {
    pub image: Vec<u8>,
    pub counts: Counts,
    /// All entries the check reads, those of the root and the two dots of each directory included.
    pub entries: usize,
}

/// The root's directories by how many files each has. Only entries cost on such a card: no file has a cluster.
pub fn crowd(format: Format, layout: Layout, directories: &[usize], names: Names) -> Crowd {
    let mut card = Assembly::new(format, layout);
    let mut next = (2 + directories.len()).div_ceil(2);
    let root: Vec<usize> = (0..next).collect();
    card.directory(&root, 2 + directories.len() as u32);
    let mut entries = 2 + directories.len();
    for ((slot, name), &files) in (2..).zip(names.of(directories.len())).zip(directories) {
        let length = 2 + files;
        let chain: Vec<usize> = (next..next + length.div_ceil(2)).collect();
        next += chain.len();
        entries += length;
        card.put(root[slot / 2], slot % 2, &directory(&name, length as u32, chain[0] as u32));
        card.directory(&chain, 0);
        put_files(&mut card, &chain, &names.of(files));
    }
    let counts = card.layout.counts(next);
    Crowd { image: card.finish(), counts, entries }
}

/// Empty files in a directory from slot 2 on.
fn put_files(card: &mut Assembly, chain: &[usize], names: &[Vec<u8>]) {
    for (slot, name) in (2..).zip(names) {
        card.put(chain[slot / 2], slot % 2, &file(name, 0, END_MARK));
    }
}

/// 4,000 files in one directory.
pub fn one_directory(format: Format, names: Names) -> Crowd {
    crowd(format, Layout::standard(), &[4000], names)
}

/// 40 directories of 50 files each.
pub fn many_directories(format: Format, names: Names) -> Crowd {
    crowd(format, Layout::standard(), &[50; 40], names)
}

/// 60,000 files in one directory of a card of 64 MiB.
pub fn great_directory(format: Format, names: Names) -> Crowd {
    crowd(format, Layout::fresh(MOST_CLUSTERS), &[60_000], names)
}

/// These empty files in the root, and nothing else.
pub fn files_in_root(format: Format, layout: Layout, names: &[Vec<u8>]) -> Vec<u8> {
    let mut card = Assembly::new(format, layout);
    let length = 2 + names.len();
    let chain: Vec<usize> = (0..length.div_ceil(2)).collect();
    card.directory(&chain, length as u32);
    put_files(&mut card, &chain, names);
    card.finish()
}

/// The full card of 64 MiB: eight times the files of PCSX2's, 1 to 2,500 bytes long, 2,000 in each of 8 directories.
pub fn full_great(format: Format) -> Vec<u8> {
    crowded_like(format, Layout::fresh(MOST_CLUSTERS), 8, 2000)
}

/// A card with so many files of one cluster each, 50 to a directory.
pub fn many_files(format: Format, layout: Layout, files: usize) -> Vec<u8> {
    let directories = files.div_ceil(50);
    let mut card = Assembly::new(format, layout);
    let root: Vec<usize> = (0..(2 + directories).div_ceil(2)).collect();
    card.directory(&root, 2 + directories as u32);
    let mut next = root.len();
    for place in 0..directories {
        let count = (files - 50 * place).min(50);
        let chain: Vec<usize> = (next..next + (2 + count).div_ceil(2)).collect();
        next += chain.len();
        let slot = 2 + place;
        let name = format!("D{place}");
        card.put(root[slot / 2], slot % 2, &directory(name.as_bytes(), 2 + count as u32, chain[0] as u32));
        card.directory(&chain, 0);
        for number in 0..count {
            let slot = 2 + number;
            card.put(chain[slot / 2], slot % 2, &file(format!("F{number}").as_bytes(), 1000, next as u32));
            card.chain(&[next]);
            next += 1;
        }
    }
    card.finish()
}

/// The entries that the check of a card reads, dead ones and the two dots of each directory included.
pub fn entries(format: Format, image: &[u8]) -> usize {
    let mut entries = 0;
    visit(&Checked::of(format, image).expect("an accepted card").root, b"/", &mut |_, node| {
        if node.inside.is_some() {
            entries += node.entry.length as usize;
        }
    });
    entries
}
