//! The time of an entry doesn't grow with its directory.

use std::time::Duration;

use compare::cards::{great_directory, many_directories, one_directory, Names};
use compare::checks::Check;
use compare::clock::{per_entry, times};
use reader::build::{fresh, standard};
use reader::card::MOST_CLUSTERS;
use reader::Format::Raw;

/// What an entry among 4,000 may cost of one among 50.
const LIMIT: f64 = 1.5;
/// The same for one among 60,000, on a card that no cache holds: far from a search of all names before.
const GREAT_LIMIT: f64 = 4.0;

/// The least time of each card counts, and rounds go on while that isn't enough, so that a loaded machine only makes
/// the test longer.
fn least(cards: &[&[u8]], runs: usize, is_enough: impl Fn(&[Duration]) -> bool) -> Vec<Duration> {
    let ours: Check = compare::check;
    let jobs: Vec<_> = cards.iter().map(|&card| (ours, Raw, card)).collect();
    let mut least = vec![Duration::MAX; cards.len()];
    for _ in 0..20 {
        least.iter_mut().zip(&times(&jobs, runs)).for_each(|(least, times)| *least = times[0].min(*least));
        if is_enough(&least) {
            break;
        }
    }
    least
}

#[test]
fn many_entries_in_one_directory() {
    let fresh = standard(Raw);
    for names in Names::ALL {
        let (one, many) = (one_directory(Raw, names), many_directories(Raw, names));
        let ratio = |least: &[Duration]| {
            per_entry(least[1], least[0], one.entries) / per_entry(least[2], least[0], many.entries)
        };
        let least = least(&[&fresh, &one.image, &many.image], 10, |least| ratio(least) <= LIMIT);
        let ratio = ratio(&least);
        assert!(ratio <= LIMIT, "{names:?}: an entry among 4,000 costs {ratio:.2} times one among 50");
    }
}

#[test]
fn most_entries_in_one_directory() {
    let (small, great) = (standard(Raw), fresh(Raw, MOST_CLUSTERS));
    for names in [Names::Shuffled, Names::Long] {
        let (one, many) = (great_directory(Raw, names), many_directories(Raw, names));
        let ratio = |least: &[Duration]| {
            per_entry(least[1], least[0], one.entries) / per_entry(least[3], least[2], many.entries)
        };
        let cards: [&[u8]; 4] = [&great, &one.image, &small, &many.image];
        let least = least(&cards, 3, |least| ratio(least) <= GREAT_LIMIT);
        let ratio = ratio(&least);
        println!("{names:?}: an entry among 60,000 costs {ratio:.2} times one among 50");
        assert!(ratio <= GREAT_LIMIT, "{names:?}: an entry among 60,000 costs {ratio:.2} times one among 50");
    }
}
