//! Small cards filled with entries, links and lengths that are nearly right: chains that meet, loops, depth, twins.

mod common;

use common::Tally;
use reader::build::draw::random_layout;
use reader::build::{directory, file, scribble, Assembly};
use reader::card::{END_MARK, USED};
use reader::content::visit;
use reader::entry::Entry;
use reader::paths::depth;
use reader::rng::Rng;
use reader::tree::{Checked, DEEPEST};
use reader::Format;

/// What a cluster is meant for. Heads begin with the two dots, tails hold two entries.
#[derive(Clone, Copy, PartialEq, Eq)]
enum Part {
    Head,
    Tail,
    Data,
}

/// Cards where almost every choice is drawn; `care` in 100 choices are made as a sound card would.
struct Draft {
    rng: Rng,
    care: usize,
    parts: Vec<Part>,
    /// Clusters no entry names yet, so that careful choices don't share them.
    unused: Vec<usize>,
    names: usize,
    /// Whether the first entry of each tail is a directory and the second is none, so that trees are lines.
    is_deep: bool,
}

impl Draft {
    fn careful(&mut self) -> bool {
        let care = self.care;
        self.rng.chance(care, 100)
    }

    /// A cluster of this part that nobody has; without care any cluster, or the one beyond the end.
    fn cluster(&mut self, part: Part) -> Option<usize> {
        if !self.careful() {
            return Some(self.rng.below(self.parts.len() + 1));
        }
        let place = self.unused.iter().position(|&cluster| self.parts[cluster] == part)?;
        Some(self.unused.swap_remove(place))
    }

    /// A chain of these parts, shorter where clusters run out.
    fn chain(&mut self, card: &mut Assembly, first: Part, later: Part, more: usize) -> Vec<usize> {
        let mut chain: Vec<usize> = self.cluster(first).into_iter().collect();
        for _ in 0..more {
            if !chain.is_empty() {
                chain.extend(self.cluster(later));
            }
        }
        self.link(card, &chain);
        chain
    }

    /// One entry of a tail: mostly live, of either kind, with a chain that mostly fits.
    fn entry(&mut self, card: &mut Assembly, second: bool) -> Entry {
        self.names += 1;
        let number = if self.careful() { self.names } else { self.rng.below(6) };
        let name = format!("{number}").into_bytes();
        let (more, draw) = match (self.is_deep, second) {
            (true, false) => (1, 7),
            (true, true) => (0, self.rng.below(4)),
            _ => (self.rng.below(3), self.rng.below(8)),
        };
        let (kind, chain) = match draw {
            0 => (Part::Tail, Vec::new()),
            1..=3 => (Part::Data, self.chain(card, Part::Data, Part::Data, more)),
            _ => (Part::Head, self.chain(card, Part::Head, Part::Tail, more)),
        };
        let mut entry = match kind {
            Part::Tail => Entry { mode: 0x0427, ..directory(&name, 4, 0) },
            _ if chain.is_empty() => file(&name, 0, END_MARK),
            Part::Data => file(&name, (1024 * chain.len() - self.rng.below(1024)) as u32, chain[0] as u32),
            Part::Head => {
                let slack = usize::from(chain.len() > 1 && self.rng.chance(1, 3));
                directory(&name, (2 * chain.len() - slack) as u32, chain[0] as u32)
            }
        };
        if !self.careful() {
            let length = entry.length;
            entry.length = *self.rng.pick(&[0, 1, 2, 3, 4, length + 1, length + 2, length + 1024, u32::MAX]);
        }
        entry
    }

    fn link(&mut self, card: &mut Assembly, chain: &[usize]) {
        let inside: Vec<usize> = chain.iter().copied().filter(|&cluster| cluster < self.parts.len()).collect();
        card.chain(&inside);
        if !self.careful() {
            let cluster = self.rng.below(self.parts.len());
            let next = USED | self.rng.below(self.parts.len() + 1) as u32;
            card.table[cluster] = *self.rng.pick(&[!USED, END_MARK, next]);
        }
    }
}

fn dense(format: Format, seed: u64) -> Vec<u8> {
    let mut rng = Rng::new(seed);
    let is_deep = rng.chance(1, 4);
    let clusters = 8 * if is_deep { rng.between(8, 14) } else { rng.between(4, 9) };
    let mut card = Assembly::new(format, random_layout(&mut rng, clusters));
    let end = card.layout.alloc_end;
    let mut parts: Vec<Part> = (0..end).map(|_| *rng.pick(&[Part::Head, Part::Tail, Part::Tail, Part::Data])).collect();
    parts[0] = Part::Head;
    let mut unused: Vec<usize> = (1..end).collect();
    rng.shuffle(&mut unused);
    let care = *rng.pick(&[80, 95, 99, 100]);
    let mut draft = Draft { rng, care, parts, unused, names: 0, is_deep };

    let mut root = vec![0];
    (0..draft.rng.between(1, 3)).for_each(|_| root.extend(draft.cluster(Part::Tail)));
    root.retain(|&cluster| cluster < end);
    draft.link(&mut card, &root);
    let length = (2 * root.len()) as u32;
    for cluster in 0..end {
        let entries = match draft.parts[cluster] {
            Part::Head => [directory(b".", length, 0), directory(b"..", 0, 0)],
            Part::Tail => [draft.entry(&mut card, false), draft.entry(&mut card, true)],
            Part::Data => continue,
        };
        card.put(cluster, 0, &entries[0]);
        card.put(cluster, 1, &entries[1]);
    }
    let mut image = card.finish();
    for _ in 0..draft.rng.below(3) {
        let page = draft.rng.below(2 * clusters);
        scribble::ruin(format, &mut image, page, 0, &mut draft.rng);
    }
    image
}

/// Both sides agree on every card; trees of some size are accepted too.
fn dense_cards(format: Format, seeds: std::ops::Range<u64>) -> Tally {
    let mut tally = Tally::default();
    let mut most = 0;
    let mut deepest = [0; DEEPEST + 1];
    for seed in seeds {
        let image = dense(format, seed);
        if let Ok(counts) = tally.same(format, &image, || format!("dense card {seed}")) {
            most = most.max(counts.reached);
            deepest[depth_of(format, &image)] += 1;
        }
    }
    println!("{format:?}, accepted cards by the depth of their deepest directory: {deepest:?}");
    assert!(most >= 20, "no tree of some size is accepted: {most}");
    assert!(deepest.iter().all(|&cards| cards >= 50), "{deepest:?}");
    tally
}

/// How far the deepest directory of an accepted card lies below the root.
fn depth_of(format: Format, image: &[u8]) -> usize {
    let mut deepest = 0;
    visit(&Checked::of(format, image).expect("an accepted card").root, b"/", &mut |path, node| {
        if node.inside.is_some() {
            deepest = deepest.max(depth(path));
        }
    });
    deepest
}

#[test]
fn raw_cards() {
    dense_cards(Format::Raw, 0..60_000).met([0, 2, 6, 7], 300);
}

#[test]
fn plain_cards() {
    let tally = dense_cards(Format::Plain, 60_000..120_000);
    tally.met([0, 6, 7], 300);
    assert_eq!(tally.seen[2], 0);
}
