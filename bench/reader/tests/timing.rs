//! The check of full standard cards stays well under a second; run with `--nocapture` for figures.

use std::time::{Duration, Instant};

use reader::build::{crowded, crowded_like, directory, file, random::sized, standard, Assembly, Layout};
use reader::card::{END_MARK, MOST_CLUSTERS};
use reader::{check, Format};

/// The least of several runs.
fn best(format: Format, image: &[u8]) -> Duration {
    let runs = (0..9).map(|_| {
        let start = Instant::now();
        check(format, image).unwrap();
        start.elapsed()
    });
    runs.min().unwrap()
}

#[test]
fn full_cards() {
    for format in Format::BOTH {
        let image = crowded(format);
        let counts = check(format, &image).unwrap();
        let reached = counts.reached;
        assert_eq!(counts, Layout::standard().counts(reached));
        assert_eq!(reader::tree(format, &image).unwrap().len(), 1 + 40 + 2000);
        let time = best(format, &image);
        println!("{format:?}, check of a card with 2,000 files, {reached} clusters reached: {time:?}");
        assert!(time < Duration::from_millis(500));

        let image = sized(format, 11, 8192).image;
        let (time, reached) = (best(format, &image), check(format, &image).unwrap().reached);
        println!("{format:?}, check of a random card, {reached} clusters reached: {time:?}");
        assert!(time < Duration::from_millis(500));
    }
}

/// 64 MiB with 16,000 files.
#[test]
fn the_greatest_card() {
    for format in Format::BOTH {
        let image = crowded_like(format, Layout::fresh(MOST_CLUSTERS), 8, 2000);
        let (time, counts) = (best(format, &image), check(format, &image).unwrap());
        println!("{format:?}, check of a card with 16,000 files, {} clusters reached: {time:?}", counts.reached);
        assert_eq!(counts.free + counts.reached, 65_256);
        assert!(time < Duration::from_secs(2));
    }
}

/// A card with this many empty files in one directory.
fn crowd(format: Format, clusters: usize, files: usize) -> Vec<u8> {
    let mut card = Assembly::new(format, Layout::fresh(clusters));
    let length = 2 + files;
    let chain: Vec<usize> = (2..2 + length.div_ceil(2)).collect();
    card.directory(&[0, 1], 3);
    card.put(1, 0, &directory(b"D", length as u32, 2));
    card.directory(&chain, 0);
    for slot in 2..length {
        card.put(chain[slot / 2], slot % 2, &file(format!("file{slot}").as_bytes(), 0, END_MARK));
    }
    card.finish()
}

/// An entry among 130,000 costs about as much as one among 4,000: nothing is searched from the start.
#[test]
fn entries_of_a_great_directory() {
    for format in Format::BOTH {
        let few = best(format, &crowd(format, 8192, 4000)) - best(format, &standard(format));
        let image = crowd(format, MOST_CLUSTERS, 130_000);
        let many = best(format, &image) - best(format, &reader::build::fresh(format, MOST_CLUSTERS));
        let each = [few.as_nanos() / 4000, many.as_nanos() / 130_000];
        println!("{format:?}, one entry among 4,000 and among 130,000: {each:?} ns");
        assert!(each[1] < 10 * each[0], "{each:?}");
    }
}
