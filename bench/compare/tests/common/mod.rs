//! What the comparing tests share.
#![allow(dead_code)]

pub mod both;
pub mod changes;
pub mod checker;
pub mod converts;
pub mod lookups;
pub mod mended;
pub mod orders;
pub mod requests;
pub mod room;

use reader::build::{needed, scribble};
use reader::page;
use reader::rng::Rng;
use reader::{Counts, Format, Refusal};

pub type Answer = Result<Counts, Refusal>;

/// How often each answer was met: acceptance at 0, refusals at their numbers.
#[derive(Clone, Debug, Default)]
pub struct Tally {
    pub seen: [usize; 24],
}

impl Tally {
    /// Both sides must give the same answer, which is returned.
    pub fn same(&mut self, format: Format, image: &[u8], what: impl Fn() -> String) -> Answer {
        let (ours, readers) = (compare::check(format, image), reader::check(format, image));
        assert_eq!(ours, readers, "library left, reader right: {format:?}, {}", what());
        self.count(&ours);
        ours
    }

    pub fn count<T>(&mut self, answer: &Result<T, Refusal>) {
        self.seen[answer.as_ref().err().map_or(0, |refusal| usize::from(refusal.number))] += 1;
    }

    /// The comparison wasn't idle: each of these answers was met this often.
    pub fn met(&self, answers: impl IntoIterator<Item = usize>, times: usize) {
        println!("accepted, and refused with 1 to 23: {:?}", self.seen);
        for answer in answers {
            assert!(self.seen[answer] >= times, "answer {answer} less than {times} times: {:?}", self.seen);
        }
    }
}

/// One comparison by itself.
pub fn same(format: Format, image: &[u8], what: &str) -> Answer {
    Tally::default().same(format, image, || what.to_string())
}

/// The corrected chunks of these pages, counted page by page.
pub fn corrected(format: Format, image: &[u8], pages: &[usize]) -> usize {
    let chunks = |&page: &usize| page::read_mended(format, image, page).expect("a readable page").1;
    pages.iter().flat_map(chunks).filter(|&is_corrected| is_corrected).count()
}

/// The counts of an accepted card, but for the corrected chunks, which are counted page by page where the check looks.
pub fn with_mended(format: Format, image: &[u8], counts: Counts) -> Counts {
    Counts { mended: corrected(format, image, &needed::by_check(format, image)), ..counts }
}

/// Puts fresh codes on a raw page, so that flips can be counted from none; false where it is unreadable.
pub fn mend(image: &mut [u8], page: usize) -> bool {
    page::read(Format::Raw, image, page).map(|data| page::write(Format::Raw, image, page, &data)).is_some()
}

/// Mends a readable raw page and flips one bit in each of its chunks: it reads as before.
pub fn flip_each_chunk(image: &mut [u8], page: usize, rng: &mut Rng) {
    if mend(image, page) {
        (0..4).for_each(|chunk| scribble::mendable(Format::Raw, image, page, chunk, rng));
    }
}

/// Three to six flips in one chunk: what reading makes of them is up to the code, in a plain image they are data.
pub fn many_flips(format: Format, image: &mut [u8], page: usize, rng: &mut Rng) {
    let chunk = rng.below(4);
    for _ in 0..rng.between(3, 6) {
        scribble::mendable(format, image, page, chunk, rng);
    }
}

/// Lets `change` work on one page of an image, looks at the image, and puts the page back.
pub fn with_page<T>(
    format: Format,
    image: &mut [u8],
    page: usize,
    change: impl FnOnce(&mut [u8]),
    look: impl FnOnce(&[u8]) -> T,
) -> T {
    let kept = image[format.place(page)].to_vec();
    change(image);
    let answer = look(image);
    image[format.place(page)].copy_from_slice(&kept);
    answer
}
