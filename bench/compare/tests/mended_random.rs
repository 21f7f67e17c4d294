//! The count of mended chunks by library and reader on seeded random cards with flips, through all calls and through
//! changes, and on the full cards with a flip in every chunk.

mod common;

use common::changes::Changes;
use common::lookups::Lookups;
use common::mended::{counted, flip_everything};
use common::requests::{random_offset, random_path, random_size, random_slot};
use common::{corrected, many_flips, mend, with_mended, with_page, Tally};
use compare::cards::{full, full_great};
use compare::listing;
use reader::build::random::{listed, random, tight, RandomCard};
use reader::build::requests::random_change;
use reader::build::{needed, scribble};
use reader::rng::Rng;
use reader::Format::{self, Plain, Raw};
use reader::{tree, Answer, Tree};

/// A random card, every second one with a bad block list or a tail.
fn random_card(format: Format, seed: u64) -> RandomCard {
    match seed % 16 {
        0 => tight(format, seed),
        1..=7 => listed(format, seed),
        _ => random(format, seed),
    }
}

/// Flips in some raw pages that are readable, one at most in a chunk, and junk in bits that reading ignores. Plain
/// pages stay: theirs would be other data.
fn flip_some(format: Format, image: &mut [u8], rng: &mut Rng) {
    let (worn, pages) = (rng.between(1, 8), image.len() / format.page_bytes());
    for page in (0..pages).filter(|_| format == Raw) {
        if rng.chance(worn, 8) && mend(image, page) {
            for chunk in (0..4).filter(|_| rng.chance(worn, 12)).collect::<Vec<_>>() {
                scribble::mendable(format, image, page, chunk, rng);
            }
            scribble::junk_spare(image, page, rng);
        }
    }
}

/// Random requests on random cards.
struct Run {
    checks: Tally,
    lookups: Lookups,
    /// Chunks corrected in the checks, and those that reads added.
    in_checks: usize,
    in_reads: usize,
}

impl Run {
    fn new(format: Format) -> Run {
        Run { checks: Tally::default(), lookups: Lookups::new(format), in_checks: 0, in_reads: 0 }
    }

    /// Each card as it was drawn, then with other flips, and then with many in one page after the other.
    fn cards(&mut self, seeds: std::ops::Range<u64>) {
        let format = self.lookups.format;
        for seed in seeds {
            let card = random_card(format, seed);
            let mut rng = Rng::new(seed ^ 0x3E9DED);
            let mut image = card.image;
            let mut what = format!("random card {seed}");
            assert_eq!(self.checks.same(format, &image, || what.clone()), Ok(card.counts), "{what}");
            flip_some(format, &mut image, &mut rng);
            what += ", flipped";
            let counts = self.checks.same(format, &image, || what.clone());
            assert_eq!(counts, Ok(with_mended(format, &image, card.counts)), "{what}");
            let mended = counts.expect("an accepted card").mended;
            self.in_checks += mended;
            assert_eq!(listed_count(format, &image, &what), Some(mended), "{what}");
            self.requests(&image, &card.tree, Some(mended), 12, &mut rng, &what);

            let checked = needed::by_check(format, &image);
            for round in 0..3 {
                let page = if round == 0 { rng.below(2 * card.layout.clusters) } else { *rng.pick(&checked) };
                let change = |image: &mut [u8]| many_flips(format, image, page, &mut rng);
                let about = format!("{what}, many flips in page {page}");
                let mut after = Rng::new(seed + round);
                with_page(format, &mut image, page, change, |image| {
                    let mended = self.checks.same(format, image, || about.clone()).ok().map(|counts| counts.mended);
                    assert_eq!(listed_count(format, image, &about), mended, "{about}");
                    self.requests(image, &card.tree, mended, 2, &mut after, &about);
                });
            }
        }
    }

    /// Requests at random paths. Every accepted one tells the check's count, a read that of the pages it copies from
    /// too.
    fn requests(&mut self, image: &[u8], items: &Tree, mended: Option<usize>, count: usize, rng: &mut Rng, what: &str) {
        let format = self.lookups.format;
        for request in 0..count {
            let what = || format!("{what}, request {request}");
            let path = random_path(rng, items);
            let found = self.lookups.find_mended(image, &path, what);
            assert!(found.as_ref().map_or(true, |found| Some(found.mended) == mended), "{}", what());
            let length = found.map_or_else(|_| rng.below(3000) as u32, |found| found.value.length);
            let next = self.lookups.step_mended(image, &path, random_slot(rng, length), what);
            assert!(next.map_or(true, |next| Some(next.mended) == mended), "{}", what());
            let offset = random_offset(rng, length as usize);
            let size = random_size(rng, length as usize, offset);
            if let Ok(read) = self.lookups.read_mended(image, &path, offset, size, what).0 {
                let pages = needed::by_read(format, image, &path, offset, size);
                let added = corrected(format, image, &pages);
                assert_eq!(Some(read.mended), mended.map(|mended| mended + added), "{}", what());
                assert_eq!(read.value == 0, pages.is_empty(), "{}", what());
                self.in_reads += added;
            }
        }
    }

    /// Nothing was too rare, and a plain image has nothing to mend.
    fn met(&self, times: usize) {
        let counts = [self.in_checks, self.in_reads];
        println!("corrected in checks, and by reads besides: {counts:?}");
        let Lookups { format, finds, steps, reads, .. } = &self.lookups;
        finds.met([0, 8, 9, 10], times);
        steps.met([0, 8, 9, 10], times);
        reads.met([0, 8, 9, 10, 15], times);
        match format {
            Raw => {
                self.checks.met([0, 2], times);
                reads.met([2], times);
                assert!(counts[0] > 100 * times && counts[1] > 3 * times, "{counts:?}");
            }
            Plain => assert_eq!(counts, [0, 0]),
        }
    }
}

/// What both listings tell, where the card is accepted.
fn listed_count(format: Format, image: &[u8], what: &str) -> Option<usize> {
    let text = listing::whole(format, image);
    assert!(text == reader::list(format, image, 0), "the {format:?} listings differ, {what}");
    let count = text.lines().nth(5)?.strip_prefix("mended ").expect("the line after that of the held back");
    Some(count.parse().expect("a number"))
}

#[test]
fn raw_cards() {
    let mut run = Run::new(Raw);
    run.cards(0..240);
    run.met(100);
}

#[test]
fn plain_cards() {
    let mut run = Run::new(Plain);
    run.cards(0..120);
    run.met(50);
}

/// Changes on cards with flips: pages that are rewritten have nothing to correct, all others keep what they had, and
/// both sides count what is left.
#[test]
fn sequences_of_changes() {
    let mut changes = Changes::new(Raw);
    let (mut checks, mut mended, mut gone) = (Tally::default(), 0, 0);
    for seed in 0..60 {
        let card = random_card(Raw, 1000 + 16 * seed + seed % 16);
        let mut rng = Rng::new(seed ^ 0xC0117);
        let (mut image, pages) = (card.image, 2 * card.layout.clusters);
        for number in 0..if pages < 1000 { 12 } else { 3 } {
            flip_some(Raw, &mut image, &mut rng);
            let what = || format!("random card {seed}, change {number}");
            let before = image.clone();
            let change = random_change(&mut rng, &tree(Raw, &image).expect("an accepted card"));
            if changes.apply(&mut image, &change, what).is_err() {
                assert!(image == before, "{}", what());
                continue;
            }
            let is_written = |&page: &usize| image[Raw.place(page)] != before[Raw.place(page)];
            let (written, kept): (Vec<usize>, Vec<usize>) =
                needed::by_check(Raw, &image).into_iter().partition(is_written);
            assert_eq!(corrected(Raw, &image, &written), 0, "{}", what());
            let counts = checks.same(Raw, &image, what).expect("a change leaves a sound card");
            assert_eq!(counts.mended, corrected(Raw, &before, &kept), "{}", what());
            let rewritten: Vec<usize> = needed::by_check(Raw, &before).into_iter().filter(is_written).collect();
            mended += counts.mended;
            gone += corrected(Raw, &before, &rewritten);
        }
    }
    println!("corrected after changes, and gone by them: {mended}, {gone}");
    changes.accepted(10);
    assert!(mended > 5000 && gone > 300, "{mended} {gone}");
}

/// Every chunk of every page flipped: four for each page that is needed, by all calls.
fn every_chunk(mut image: Vec<u8>, paths: &[&[u8]], files: usize) {
    let mut rng = Rng::new(2000);
    flip_everything(&mut image, &mut rng);
    let checked = needed::by_check(Raw, &image).len();
    assert_eq!(counted(Raw, &image, paths, || "every chunk".into()), 4 * checked);
    println!("{checked} pages needed by the check");
    let mut lookups = Lookups::new(Raw);
    let items = tree(Raw, &image).expect("an accepted card");
    let all: Vec<_> = items.iter().filter(|(_, item)| !item.is_directory).map(|(path, _)| path).collect();
    for _ in 0..files {
        let path = *rng.pick(&all);
        let length = reader::find(Raw, &image, path).expect("it is there").length as usize;
        let (offset, size) = (rng.below(length), rng.between(1, 2600));
        let pages = needed::by_read(Raw, &image, path, offset, size).len();
        let answer = lookups.read_mended(&image, path, offset, size, || "every chunk".into()).0;
        let expected = Answer { value: size.min(length - offset), mended: 4 * (checked + pages) };
        assert_eq!(answer, Ok(expected), "{size} from {offset} of {}", path.escape_ascii());
    }
}

#[test]
fn full_card() {
    every_chunk(full(Raw), &[b"/", b"/SAVE07", b"/SAVE39/f011"], 60);
}

#[test]
fn full_card_of_64_mib() {
    every_chunk(full_great(Raw), &[b"/SAVE07"], 3);
}
