//! The reserved tail and listed bad blocks, of document 02's requests 3 and 5, in both formats: what is counted, read,
//! freed and used there, and that nothing new is put there.

mod common;

use common::{room, TWELVE};
use reader::build::random::{listed, tight, RandomCard};
use reader::build::withheld::{samples, Sample};
use reader::build::{self, usual_time};
use reader::card::Card;
use reader::tree::Checked;
use reader::{check, create, delete, find, list, make_dir, read, remove_dir, replace, tree, Counts, Format};

#[test]
fn good_cards() {
    let cards = [build::tail::good, build::listed::good, build::listed::with_tail];
    for card in Format::BOTH.into_iter().flat_map(|format| cards.map(|good| good(format)).concat()) {
        assert_eq!(check(card.format, &card.image), Ok(card.counts), "{:?}, {}", card.format, card.name);
        let Counts { free, reached, orphaned, held, .. } = card.counts;
        let end = Checked::of(card.format, &card.image).unwrap().card.alloc_end;
        assert_eq!(free + reached + orphaned + held, end, "{}", card.name);
        let line = format!("\norphaned {orphaned}\nheld {held}\nmended 0\n");
        assert!(list(card.format, &card.image, 0).contains(&line), "{}", card.name);
    }
}

/// The counts and trees that the builder meant, on cards where free, orphaned and reached clusters lie on both sides.
#[test]
fn random_cards() {
    type Builder = fn(Format, u64) -> RandomCard;
    type Withheld = fn(&Card, usize) -> bool;
    let kinds: [(&str, Builder, Withheld, u64, usize); 2] =
        [("the tail", tight, |_, cluster| cluster >= 8000, 40, 200), ("bad blocks", listed, Card::is_bad, 200, 500)];
    for (name, builder, is_withheld, seeds, least) in kinds {
        let mut sums = [0; 4];
        for seed in 0..seeds {
            let format = Format::BOTH[seed as usize % 2];
            let card = builder(format, seed);
            assert_eq!(check(format, &card.image), Ok(card.counts), "{name}, seed {seed}");
            assert!(tree(format, &card.image).unwrap() == card.tree, "{name}, seed {seed}");
            let checked = Checked::of(format, &card.image).unwrap();
            let there = checked.reached.iter().filter(|&&cluster| is_withheld(&checked.card, cluster)).count();
            let sum = [card.counts.free, card.counts.held, there, checked.reached.len() - there];
            sums.iter_mut().zip(sum).for_each(|(all, sum)| *all += sum);
        }
        println!("{name}: free, held back, reached there, reached elsewhere: {sums:?}");
        assert!(sums.iter().all(|&sum| sum > least), "{name}: {sums:?}");
    }
}

#[test]
fn chains() {
    for (format, sample) in samples() {
        let Sample { name, inside, split, .. } = sample;
        let mut image = sample.card(format, &[]).finish();
        assert_eq!(check(format, &image), Ok(sample.counts(0)), "{name}");
        let (mut in_inside, mut in_split) = ([0; 3000], [0; 4000]);
        assert_eq!(read(format, &image, b"/INSIDE", 0, &mut in_inside), Ok(2500));
        assert_eq!(read(format, &image, b"/SPLIT", 0, &mut in_split), Ok(4000));
        let first_byte = |cluster| (7 * sample.page(cluster, 0)) as u8;
        assert_eq!([in_inside[0], in_inside[1024]], [inside[0], inside[1]].map(first_byte), "{name}");
        assert_eq!([in_split[0], in_split[2048]], [split[0], split[2]].map(first_byte), "{name}");

        // Two clusters of SPLIT are withheld and two are not; INSIDE gives none that may be taken.
        let more_room = |image: &[u8]| {
            let (free, held) = room(format, image);
            (free, held - sample.counts(0).held)
        };
        assert_eq!(replace(format, &mut image, b"/INSIDE", &usual_time(), b"x"), TWELVE);
        assert_eq!(delete(format, &mut image, b"/SPLIT"), Ok(()));
        assert_eq!(more_room(&image), (2, 2), "{name}");
        assert_eq!(replace(format, &mut image, b"/INSIDE", &usual_time(), &[7; 2049]), TWELVE);
        assert_eq!(replace(format, &mut image, b"/INSIDE", &usual_time(), &[7; 2048]), Ok(()));
        assert_eq!(more_room(&image), (0, 5), "{name}");
        assert_eq!(find(format, &image, b"/INSIDE").unwrap().first_cluster, 5, "{name}");
        assert_eq!(remove_dir(format, &mut image, b"/FULL").map_err(|refusal| refusal.number), Err(13));
        assert_eq!(delete(format, &mut image, b"/FULL/x"), Ok(()));
        assert_eq!(delete(format, &mut image, b"/FULL/y"), Ok(()));
        assert_eq!(remove_dir(format, &mut image, b"/FULL"), Ok(()));
        assert_eq!(more_room(&image), (0, 7), "{name}");
        assert_eq!(delete(format, &mut image, b"/INSIDE"), Ok(()));
        assert_eq!(more_room(&image), (2, 7), "{name}");
    }
}

/// Withheld slots are used while no cluster is free; one more cluster is taken from elsewhere or not at all.
#[test]
fn slots() {
    let time = usual_time();
    for (format, sample) in samples() {
        let mut image = sample.card(format, &[]).finish();
        for path in [&b"/new"[..], b"/HALF/new", b"/DEAD/new"] {
            assert_eq!(create(format, &mut image, path, &time, b"x"), TWELVE);
            assert_eq!(make_dir(format, &mut image, path, &time), TWELVE);
            assert_eq!(create(format, &mut image, path, &time, b""), Ok(()));
        }
        for path in [&b"/more"[..], b"/HALF/more", b"/DEAD/more", b"/FULL/new"] {
            assert_eq!(create(format, &mut image, path, &time, b""), TWELVE);
        }
        assert_eq!(check(format, &image), Ok(sample.counts(0)), "{}", sample.name);

        let mut image = sample.card(format, &sample.free[2..]).finish();
        assert_eq!(make_dir(format, &mut image, b"/FULL/new", &time), TWELVE);
        assert_eq!(create(format, &mut image, b"/FULL/new", &time, b"x"), TWELVE);
        assert_eq!(create(format, &mut image, b"/FULL/new", &time, b""), Ok(()));
        assert_eq!(check(format, &image), Ok(sample.counts(0)), "{}", sample.name);
        assert_eq!(create(format, &mut image, b"/FULL/more", &time, b""), Ok(()));
    }
}
