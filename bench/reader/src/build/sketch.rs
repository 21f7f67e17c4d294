//! A random card while it is drawn: its tree grows out of a pool of clusters, then what is left of them gets its words.

use std::collections::{BTreeMap, HashMap, HashSet};

use super::draw::{long_name, put_kind, put_name, random_name, random_page};
use super::random::RandomCard;
use super::wear::wear;
use super::{Assembly, Layout};
use crate::card::{END_MARK, USED};
use crate::content::{Item, Piece, Tree};
use crate::entry::{Entry, DIRECTORY, FILE, NO_CLUSTER, WRITE};
use crate::page::{Data, Format, CLUSTER_DATA, DATA};
use crate::paths;
use crate::rng::Rng;
use crate::tree::{Counts, DEEPEST};

/// A directory being drawn: its place in the tree, its chain and how many slots it has.
struct Drawn {
    path: Vec<u8>,
    depth: usize,
    chain: Vec<usize>,
    length: usize,
    names: HashSet<Vec<u8>>,
    /// The same names in their order, to pick from.
    listed: Vec<Vec<u8>>,
    /// The page that carries its length.
    page: usize,
}

pub(super) struct Sketch {
    card: Assembly,
    /// Clusters not taken yet, in the order they will be taken.
    pool: Vec<usize>,
    drawn: Vec<Drawn>,
    /// Entry pages by page number, before they are written.
    entries: BTreeMap<usize, Data>,
    /// Pages of files, whose damage the check never sees: page, path, piece number.
    file_pages: Vec<(usize, Vec<u8>, usize)>,
    tree: Tree,
    /// Most names have 31 bytes.
    has_long_names: bool,
    /// Write bits are junk too; else each entry that a change looks at has its bit.
    has_locks: bool,
}

impl Sketch {
    /// An empty root, and the clusters that a tree may take; they are shuffled two times in three.
    pub(super) fn new(format: Format, layout: Layout, mut pool: Vec<usize>, rng: &mut Rng) -> Sketch {
        let mut card = Assembly::new(format, layout);
        // Erased and junk pages alike stand wherever nothing is written.
        for page in 0..2 * card.layout.clusters {
            if rng.chance(1, 4) {
                rng.fill(&mut card.image[format.place(page)]);
            }
        }
        if rng.chance(2, 3) {
            rng.shuffle(&mut pool);
        }
        let mut sketch = Sketch {
            card,
            pool,
            drawn: Vec::new(),
            entries: BTreeMap::new(),
            file_pages: Vec::new(),
            tree: Tree::new(),
            has_long_names: rng.chance(1, 8),
            has_locks: rng.chance(1, 4),
        };
        let page = sketch.card.page(0, 0);
        sketch.directory(rng, b"/".to_vec(), 0, 0, page);
        let root = Entry::parse(&sketch.entries[&page]);
        sketch.tree.insert(b"/".to_vec(), item(&root, Vec::new()));
        sketch
    }

    /// A list of bad blocks; the tree and what is free take no notice of it.
    pub(super) fn list(&mut self, words: &[u32]) {
        self.card.list(words);
    }

    /// Directories one below the other, as deep as they may lie or less; where room is scarce, fewer.
    fn descend(&mut self, rng: &mut Rng) {
        let depth = if rng.chance(2, 3) { DEEPEST } else { rng.between(1, DEEPEST) };
        for at in 0..depth {
            if self.pool.len() < 2 {
                return;
            }
            let page = self.next_slot(at);
            self.child_directory(rng, at, page);
        }
    }

    /// Adds entries until the card's clusters or the draw run out. Half of the trees stay shallow, a third begin with a
    /// descent.
    pub(super) fn grow(&mut self, rng: &mut Rng) {
        let deepest = if rng.chance(1, 2) { 3 } else { DEEPEST };
        if deepest == DEEPEST && rng.chance(2, 3) {
            self.descend(rng);
        }
        let keep = rng.below(self.pool.len() + 1) / 2;
        let tries = rng.between(1, 2 + self.pool.len());
        for _ in 0..tries {
            let last = self.drawn.len() - 1;
            let at = if rng.chance(1, 3) { last } else { rng.below(self.drawn.len()) };
            let growth = usize::from(self.drawn[at].length.is_multiple_of(2));
            let bytes = match rng.below(8) {
                0 => 0,
                1 => *rng.pick(&[1, 511, 512, 513, 1023, 1024, 1025, 2048]),
                2 => rng.below(20_000),
                _ => rng.below(3_000),
            };
            if self.pool.len() < keep + growth + bytes.div_ceil(CLUSTER_DATA).max(1) {
                continue;
            }
            let page = self.next_slot(at);
            match rng.below(10) {
                0..=1 => self.dead(rng, at, page),
                2..=4 if self.drawn[at].depth < deepest => self.child_directory(rng, at, page),
                _ => self.file(rng, at, page, bytes),
            }
        }
    }

    /// One more slot in a directory; its chain grows where the length was even.
    fn next_slot(&mut self, at: usize) -> usize {
        let drawn = &mut self.drawn[at];
        if drawn.length.is_multiple_of(2) {
            drawn.chain.push(self.pool.pop().expect("room was looked at"));
        }
        let (slot, cluster) = (drawn.length, drawn.chain[drawn.length / 2]);
        drawn.length += 1;
        self.card.page(cluster, slot % 2)
    }

    fn dead(&mut self, rng: &mut Rng, at: usize, page: usize) {
        let mut data = random_page(rng);
        let names = &self.drawn[at].listed;
        if !names.is_empty() && rng.chance(1, 2) {
            let name = rng.pick(names);
            put_name(rng, &mut data, name);
        }
        data[1] &= 0x7F;
        self.entries.insert(page, data);
    }

    fn file(&mut self, rng: &mut Rng, at: usize, page: usize, bytes: usize) {
        let split = self.pool.len() - bytes.div_ceil(CLUSTER_DATA);
        let chain: Vec<usize> = self.pool.split_off(split);
        self.card.chain(&chain);
        let (path, mut data) = self.named(rng, at, FILE);
        let mut entry = Entry::parse(&data);
        entry.length = bytes as u32;
        entry.first_cluster = chain.first().map_or(NO_CLUSTER, |&cluster| cluster as u32);
        entry.put(&mut data);
        self.entries.insert(page, data);

        let mut pieces = Vec::new();
        for index in 0..2 * chain.len() {
            let mut content = [0; DATA];
            rng.fill(&mut content);
            let page = self.card.page(chain[index / 2], index % 2);
            self.card.write(page, &content);
            if index * DATA < bytes {
                pieces.push(Piece::Bytes(content[..DATA.min(bytes - index * DATA)].to_vec()));
            }
            self.file_pages.push((page, path.clone(), index));
        }
        self.tree.insert(path, item(&entry, pieces));
    }

    fn child_directory(&mut self, rng: &mut Rng, at: usize, page: usize) {
        let first = self.pool.pop().expect("room was looked at");
        let (path, mut data) = self.named(rng, at, DIRECTORY);
        let mut entry = Entry::parse(&data);
        entry.first_cluster = first as u32;
        entry.put(&mut data);
        self.entries.insert(page, data);
        self.tree.insert(path.clone(), item(&entry, Vec::new()));
        let depth = self.drawn[at].depth + 1;
        self.directory(rng, path, depth, first, page);
    }

    /// Entries 0 and 1 of a directory; their other fields are junk.
    fn directory(&mut self, rng: &mut Rng, path: Vec<u8>, depth: usize, first: usize, page: usize) {
        for (second, name) in [(0, b".".as_slice()), (1, b"..")] {
            let mut data = random_page(rng);
            put_name(rng, &mut data, name);
            let is_asked = depth == 0 && second == 0;
            put_kind(&mut data, if is_asked { DIRECTORY | self.write_bit() } else { DIRECTORY });
            self.entries.insert(self.card.page(first, second), data);
        }
        let (names, listed) = (HashSet::new(), Vec::new());
        self.drawn.push(Drawn { path, depth, chain: vec![first], length: 2, names, listed, page });
    }

    /// A page for a live entry of this kind under a new name, and its path.
    fn named(&mut self, rng: &mut Rng, at: usize, kind: u16) -> (Vec<u8>, Data) {
        let is_long = self.has_long_names && rng.chance(7, 8);
        let drawn = &mut self.drawn[at];
        let name = loop {
            let name = if is_long { long_name(rng) } else { random_name(rng) };
            if drawn.names.insert(name.clone()) {
                break name;
            }
        };
        drawn.listed.push(name.clone());
        let mut data = random_page(rng);
        put_name(rng, &mut data, &name);
        let path = paths::join(&drawn.path, &name);
        put_kind(&mut data, kind | self.write_bit());
        (path, data)
    }

    /// The write bit, where each entry that a change looks at has it.
    fn write_bit(&self) -> u16 {
        if self.has_locks {
            0
        } else {
            WRITE
        }
    }

    /// Lengths, table, orphans, flips and damage; then the card is whole.
    pub(super) fn finish(mut self, rng: &mut Rng) -> RandomCard {
        for drawn in &self.drawn {
            let data = self.entries.get_mut(&drawn.page).expect("a directory's entry");
            let entry = Entry { length: drawn.length as u32, ..Entry::parse(data) };
            entry.put(data);
            self.card.chain(&drawn.chain);
        }
        for (&page, data) in &self.entries {
            self.card.write(page, data);
        }

        let mut counts = self.put_words(rng);
        let end = self.card.layout.alloc_end;
        self.card.table[end..].iter_mut().for_each(|word| *word = rng.draw() as u32);
        let names = self.card.layout.table.len();
        self.card.indirect[names..].iter_mut().for_each(|word| *word = rng.draw() as u32);
        rng.fill(&mut self.card.superblock[0x54..0xD0]);
        rng.fill(&mut self.card.superblock[0x150..]);

        let (format, layout) = (self.card.format, self.card.layout.clone());
        let mut needed: HashSet<usize> = self.entries.keys().copied().collect();
        needed.insert(0);
        for &cluster in layout.table.iter().chain([&layout.indirect]) {
            needed.extend([2 * cluster, 2 * cluster + 1]);
        }
        let mut image = self.card.finish();
        let flips = match format {
            Format::Raw => wear(rng, &mut image, &needed, &self.file_pages, &mut self.tree),
            Format::Plain => HashMap::new(),
        };
        counts.mended = needed.iter().filter_map(|page| flips.get(page)).sum();
        RandomCard { format, image, layout, counts, tree: self.tree, flips }
    }

    /// The words of the clusters that no chain took: of those left in the pool some are orphaned, all others are.
    fn put_words(&mut self, rng: &mut Rng) -> Counts {
        let Layout { clusters, alloc_end: end, .. } = self.card.layout;
        let (reached, others): (Vec<usize>, Vec<usize>) =
            (0..end).partition(|&cluster| self.card.table[cluster] & USED != 0);
        let mut counts = Counts { clusters, free: 0, reached: reached.len(), orphaned: 0, held: 0, mended: 0 };
        let left: HashSet<usize> = self.pool.iter().copied().collect();
        let beside = others.into_iter().filter(|cluster| !left.contains(cluster));
        for cluster in self.pool.iter().copied().chain(beside) {
            let junk = rng.draw() as u32;
            let draw = if left.contains(&cluster) { rng.below(12) } else { rng.below(3) };
            let (word, is_free) = match draw {
                0 => (END_MARK, false),
                1 => (junk | USED, false),
                2 => (USED | rng.below(end) as u32, false),
                3 => (0, true),
                4..=6 => (junk & !USED, true),
                _ => (!USED, true),
            };
            self.card.table[cluster] = word;
            *(match (is_free, self.card.is_open(cluster)) {
                (false, _) => &mut counts.orphaned,
                (true, true) => &mut counts.free,
                (true, false) => &mut counts.held,
            }) += 1;
        }
        counts
    }
}

fn item(entry: &Entry, pieces: Vec<Piece>) -> Item {
    Item {
        is_directory: entry.is_directory(),
        mode: entry.mode,
        attribute: entry.attribute,
        created: entry.created,
        modified: entry.modified,
        pieces,
    }
}
