//! Changes that nothing but room can refuse, drawn at random or by hand, pairs of them in both orders, and the longest
//! file.

use reader::build::requests::random_change;
use reader::build::{usual_time, Assembly};
use reader::rng::Rng;
use reader::tree::{Checked, Node};
use reader::{lookup, paths, time, tree, Change, Format, Tree};

use super::both::{bytes, Both};
use super::orders::{are_apart, Run};

/// Whether nothing but room can refuse the change on a card without locks.
fn is_up_to_room(change: &Change, items: &Tree) -> bool {
    let path = change.path();
    let (there, around) = (items.get(path), items.get(paths::directory_of(path)));
    let has_inside = || items.keys().any(|other| other != path && paths::is_beginning(path, other));
    let is_new = paths::parse(path).is_some() && there.is_none() && around.is_some_and(|item| item.is_directory);
    match change {
        Change::Create { time, .. } => is_new && time::valid(time),
        Change::MakeDir { time, .. } => is_new && time::valid(time) && paths::depth(path) < paths::MOST_NAMES,
        Change::Replace { time, .. } => there.is_some_and(|item| !item.is_directory) && time::valid(time),
        Change::Delete { .. } => there.is_some_and(|item| !item.is_directory),
        Change::RemoveDir { .. } => path != b"/" && there.is_some_and(|item| item.is_directory) && !has_inside(),
    }
}

/// A random change that nothing but room can refuse; the card has no locks.
pub fn up_to_room(rng: &mut Rng, items: &Tree) -> Change {
    std::iter::repeat_with(|| random_change(rng, items)).find(|change| is_up_to_room(change, items)).expect("endless")
}

/// The node at a path of a checked card.
pub fn node(checked: &Checked, names: &[&[u8]]) -> Node {
    lookup::locate(&checked.root, names).expect("it is there").clone()
}

pub fn create(path: &str, clusters: usize) -> Change {
    Change::Create { path: path.into(), time: usual_time(), data: bytes(1024 * clusters) }
}

pub fn replace(path: &str, clusters: usize) -> Change {
    Change::Replace { path: path.into(), time: usual_time(), data: bytes(1024 * clusters) }
}

pub fn make(path: &str) -> Change {
    Change::MakeDir { path: path.into(), time: usual_time() }
}

pub fn delete(path: &str) -> Change {
    Change::Delete { path: path.into() }
}

impl Run {
    /// Pairs of such changes on copies of an image, every second one in one directory where there is such a pair.
    pub fn pairs_up_to_room(&mut self, image: &[u8], pairs: usize, rng: &mut Rng, what: impl Fn() -> String) {
        let items = tree(self.changes.format, image).expect("an accepted card");
        for number in 0..pairs {
            let one = up_to_room(rng, &items);
            let around = paths::directory_of(one.path());
            let others: Vec<Change> = (0..12).map(|_| up_to_room(rng, &items)).collect();
            let mut apart = others.iter().filter(|other| are_apart(one.path(), other.path()));
            let near = apart.clone().find(|other| number % 2 == 0 && paths::directory_of(other.path()) == around);
            if let Some(other) = near.or(apart.next()) {
                self.both_orders(image, &[one, other.clone()], || format!("{}, pair {number}", what()));
            }
        }
    }

    /// So many pairs were accepted in both orders, and some in none for want of room.
    pub fn room_decided(&self, times: usize) {
        let accepted: usize = self.accepted.iter().flatten().sum();
        let others = [self.one_order, self.neither, self.creations_refused, self.differed];
        println!("{accepted} pairs accepted in both orders; one order, neither, creations, counts: {others:?}");
        assert!(accepted >= times && self.neither >= 10 && self.creations_refused >= 3, "{accepted} {others:?}");
    }
}

/// Pairs drawn by hand, and in how many orders each is accepted to its end: 0, 1 or 2.
pub fn drawn_pairs_on(format: Format, image: &[u8], cases: &[([Change; 2], usize)]) -> Run {
    let mut run = Run::new(format);
    for (number, (pair, orders)) in cases.iter().enumerate() {
        let met = |run: &Run| [run.neither, run.one_order, run.accepted.iter().flatten().sum::<usize>()];
        let before = met(&run);
        run.both_orders(image, pair, || format!("pair {number}"));
        let mut expected = before;
        expected[*orders] += 1;
        assert_eq!(met(&run), expected, "{format:?}, {pair:?}");
    }
    run
}

/// On a card with an empty root these clusters are free: the root grows by the first, a file takes all others, but none
/// more.
pub fn all_taken(format: Format, card: Assembly, taken: &[usize], held: usize) {
    let what = format!("{format:?}, {:?}", card.layout);
    let mut both = Both::new(format, card.finish());
    let room = |both: &Both| (both.counts().free, both.counts().held);
    assert_eq!(room(&both), (taken.len(), held), "{what}");
    let most = 1024 * (taken.len() - 1);
    assert_eq!((both.create("/A", &bytes(most + 1)), both.create("/A", &bytes(most))), (12, 0), "{what}");
    let root = Checked::of(format, &both.ours).expect("a sound card").root;
    let chain = [&root.chain[1..], &root.inside.expect("the root").children[0].chain].concat();
    assert_eq!((chain, room(&both)), (taken.to_vec(), (0, held)), "{what}");
    assert_eq!((both.make_dir("/B"), both.create("/B", b"x"), both.replace("/A", b"x")), (12, 12, 12), "{what}");
    assert_eq!((both.create("/B", b""), both.delete("/A")), (0, 0), "{what}");
    assert_eq!(room(&both), (taken.len() - 1, held), "{what}");
}
