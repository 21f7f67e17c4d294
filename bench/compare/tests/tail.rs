//! The reserved tail by library and reader: which cards have one, and that new clusters lie below it, up to the last one
//! and no further.

mod common;

use common::both::{bytes, Both};
use common::room::all_taken;
use common::same;
use compare::cards::{counts_by_tree, full};
use reader::build::tail::crammed;
use reader::build::{fresh, standard, Layout};
use reader::card::MOST_CLUSTERS;
use reader::rng::Rng;
use reader::{Counts, Format};

/// Layouts, the index of the last cluster that is taken, and how many are held back.
fn borders() -> [(Layout, usize, usize); 9] {
    let standard = Layout::standard;
    [
        (standard(), 7999, 135),
        (Layout::widest(8192), 7999, 142),
        (standard().ending(8002), 7999, 2),
        (standard().ending(8001), 7999, 1),
        (standard().ending(8000), 7999, 0),
        (standard().ending(7999), 7998, 0),
        (Layout::widest(8184), 8133, 0),
        (Layout::widest(8200), 8149, 0),
        (Layout::fresh(8200).ending(8135), 8134, 0),
    ]
}

/// A file over exactly what is free below the limit, right up to it; one cluster more is 12.
#[test]
fn last_clusters() {
    for (format, (layout, last, held)) in
        Format::BOTH.into_iter().flat_map(|format| borders().into_iter().map(move |border| (format, border)))
    {
        for free in [1, 3] {
            let taken: Vec<usize> = (last + 1 - free..=last).collect();
            all_taken(format, crammed(format, layout.clone(), last + 1, free), &taken, held);
        }
    }
}

/// The greatest cards have no tail: with every cluster below 8,000 used, new ones are taken from there on.
#[test]
fn greatest_cards() {
    for format in Format::BOTH {
        let mut both = Both::new(format, crammed(format, Layout::fresh(MOST_CLUSTERS), 8000, 0).finish());
        let counts =
            |free| Counts { clusters: 65_536, free, reached: 57_257 - free, orphaned: 7999, held: 0, mended: 0 };
        assert_eq!(both.counts(), counts(57_256));
        assert_eq!(both.create("/A", &bytes(3000)), 0);
        assert_eq!(both.counts(), counts(57_252));
        let entry = compare::find(format, &both.ours, b"/A").expect("it was created");
        assert_eq!(entry.first_cluster, 8001);
        assert_eq!(both.delete("/A"), 0);
        assert_eq!(both.counts(), counts(57_255));
    }
}

/// One file after the other until 12, in the root and in directories; what is left is used up cluster by cluster.
fn filled(format: Format) {
    let mut rng = Rng::new(12);
    let mut both = Both::new(format, standard(format));
    let directories = ["", "/D0", "/D1", "/D2"];
    directories[1..].iter().for_each(|path| assert_eq!(both.make_dir(path), 0));
    let mut files = Vec::new();
    for most in [900_usize, 60, 1] {
        let mut refused = 0;
        while refused < 3 {
            let path = format!("{}/file{}", directories[files.len() % 4], files.len());
            match both.create(&path, &bytes(1024 * rng.between(most.div_ceil(2), most) - 5)) {
                0 => files.push(path),
                12 => refused += 1,
                number => panic!("refused with {number}"),
            }
            let counts = both.counts();
            assert_eq!((counts.free + counts.reached, counts.orphaned, counts.held), (8000, 0, 135));
        }
    }
    let left = both.counts().free;
    println!("{format:?}: {} files, {left} clusters left", files.len());
    // A file of one cluster is refused: at most one is left, for a directory that would have to grow.
    assert!(files.len() >= 20 && left <= 1, "{} {left}", files.len());
    let listed = both.listed();
    assert!(listed.contains(&format!("\nfree {left}\nreached {}\norphaned 0\nheld 135\nmended 0\n", 8000 - left)));

    files.iter().for_each(|path| assert_eq!(both.delete(path), 0));
    directories[1..].iter().for_each(|path| assert_eq!(both.remove_dir(path), 0));
    let root = both.counts().reached;
    assert_eq!(both.counts(), Layout::standard().counts(root));
    assert_eq!(both.create("/all", &bytes(1024 * (8000 - root) + 1)), 12);
    assert_eq!(both.create("/all", &bytes(1024 * (8000 - root))), 0);
    assert_eq!(
        both.listed().lines().take(6).collect::<Vec<_>>()[1..],
        ["free 0", "reached 8000", "orphaned 0", "held 135", "mended 0"]
    );
    both.changes.met([0, 12], 5);
}

#[test]
fn filled_raw() {
    filled(Format::Raw);
}

#[test]
fn filled_plain() {
    filled(Format::Plain);
}

/// PCSX2's full card: the counts by what it read, and the longest file that still fits.
#[test]
fn pcsx2_full_card() {
    for format in Format::BOTH {
        let counts = counts_by_tree("full-small.tree", &Layout::standard());
        assert_eq!((counts.free + counts.reached, counts.held), (8000, 135));
        let mut both = Both::new(format, full(format));
        assert_eq!(both.counts(), counts);
        // The root has 42 slots and grows.
        let most = 1024 * (counts.free - 1);
        assert_eq!((both.create("/A", &bytes(most + 1)), both.create("/A", &bytes(most))), (12, 0));
        assert_eq!(both.counts(), Counts { free: 0, reached: 8000, ..counts });
        assert_eq!((both.create("/SAVE00/B", b"x"), both.replace("/A", b"x"), both.delete("/A")), (12, 12, 0));
        assert_eq!(both.counts(), Counts { free: counts.free - 1, reached: counts.reached + 1, ..counts });
    }
}

/// A fresh card's free count is what its user is told: 7,999 clusters of 1,024 bytes.
#[test]
fn fresh_cards() {
    for (format, (clusters, free, held)) in Format::BOTH.into_iter().flat_map(|format| {
        [(8184, 8126, 0), (8192, 7999, 135), (8200, 8142, 0), (8448, 8389, 0), (65_536, 65_255, 0)]
            .map(|card| (format, card))
    }) {
        let counts = Counts { clusters, free, reached: 1, orphaned: 0, held, mended: 0 };
        assert_eq!(same(format, &fresh(format, clusters), "fresh card"), Ok(counts));
    }
}
