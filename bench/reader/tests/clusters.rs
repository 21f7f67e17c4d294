//! Which clusters a change takes on random cards of both formats, and that all are found again when a card is emptied.

mod common;

use common::open_clusters;
use reader::build::locks;
use reader::build::random::{listed, random, tight};
use reader::build::requests::random_change;
use reader::content::lines;
use reader::rng::Rng;
use reader::tree::Checked;
use reader::{check, find, paths, tree, Format};

/// New clusters are the lowest free ones that may be taken, ascending, growth first. On every third card the reserved
/// tail is free too, on every third bad blocks are.
#[test]
fn lowest_free_clusters() {
    let mut steps_over = 0;
    for seed in 0..450 {
        let format = Format::BOTH[seed as usize % 2];
        let image = [tight, listed, random][seed as usize % 3](format, seed).image;
        let mut rng = Rng::new(seed + 2_000_000);
        let change = random_change(&mut rng, &tree(format, &image).unwrap());
        let mut after = image.clone();
        if change.apply(format, &mut after).is_err() {
            continue;
        }
        let (old, new) = (Checked::of(format, &image).unwrap(), Checked::of(format, &after).unwrap());
        let is_open = open_clusters(format, &image);
        let is_free = |cluster: &usize| old.card.table[*cluster] >> 31 == 0;
        let free: Vec<usize> = (0..old.card.alloc_end).filter(is_free).collect();
        let taken: Vec<usize> = free.iter().copied().filter(|&cluster| new.card.table[cluster] >> 31 == 1).collect();
        let open = free.iter().copied().filter(|&cluster| is_open[cluster]);
        assert_eq!(taken, open.take(taken.len()).collect::<Vec<usize>>(), "seed {seed}");
        steps_over += usize::from(taken != free[..taken.len()]);
        if change.is_removal() {
            assert!(taken.is_empty());
            continue;
        }
        let names = paths::parse(change.path()).unwrap();
        let node = reader::lookup::locate(&new.root, &names).unwrap();
        assert_eq!(node.chain, taken[taken.len() - node.chain.len()..]);
    }
    assert!(steps_over >= 12, "{steps_over} changes passed by a free cluster that is held back");
}

/// Fill a card to the last cluster, empty it, and find every cluster again.
#[test]
fn fill_and_empty() {
    for seed in 0..80 {
        let format = Format::BOTH[seed as usize % 2];
        let mut image = random(format, seed).image;
        if image.len() > 300_000 {
            continue;
        }
        locks::set_each(format, &mut image, |_| true);
        let mut rng = Rng::new(seed);
        let mut made = Vec::new();
        loop {
            let path = paths::join(b"/", format!("fill{}", made.len()).as_bytes());
            let data = rng.bytes(1024 * (1 + made.len() % 3));
            match reader::create(format, &mut image, &path, &reader::build::usual_time(), &data) {
                Ok(()) => made.push((path, data)),
                Err(refusal) => {
                    assert_eq!(refusal.number, 12);
                    break;
                }
            }
        }
        let items = tree(format, &image).unwrap();
        for (path, data) in &made {
            assert_eq!(items[path].bytes().as_ref(), Some(data));
        }
        let lines = lines(format, &image).unwrap();
        for line in lines.iter().rev().filter(|line| line.path != b"/") {
            match line.item.is_directory {
                true => reader::remove_dir(format, &mut image, &line.path).unwrap(),
                false => reader::delete(format, &mut image, &line.path).unwrap(),
            }
        }
        let counts = check(format, &image).unwrap();
        assert_eq!(counts.reached, find(format, &image, b"/").unwrap().length.div_ceil(2) as usize);
        assert_eq!(tree(format, &image).unwrap().len(), 1);
    }
}
