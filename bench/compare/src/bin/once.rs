//! One work once, for a tool that counts the instructions of `work_itself`: `once SIDE check CARD` checks a card,
//! `once SIDE CALL` does one call on the full card, and `once entries CARD` tells how many entries a card has.

use std::env;
use std::hint::black_box;
use std::process::ExitCode;

use compare::cards::{entries, full, full_great, great_directory, many_directories, Names};
use compare::checks;
use compare::works::{Card, Side, Work};
use reader::build::{fresh, standard};
use reader::card::MOST_CLUSTERS;
use reader::Format::{self, Plain, Raw};

fn main() -> ExitCode {
    let arguments: Vec<String> = env::args().skip(1).collect();
    match done(&arguments.iter().map(String::as_str).collect::<Vec<_>>()) {
        Some(()) => ExitCode::SUCCESS,
        None => {
            eprintln!("once SIDE check CARD, once SIDE CALL or once entries CARD");
            ExitCode::from(2)
        }
    }
}

/// Nothing where a word is unknown.
fn done(words: &[&str]) -> Option<()> {
    match *words {
        ["entries", card] => {
            let (format, image) = card_of(card)?;
            println!("{}", entries(format, &image));
        }
        [side, call] => {
            let side = if side == "library" { Side::Library } else { (side == "reader").then_some(Side::Reader)? };
            let mut card = Card::full();
            let (_, call) = Work::all(&card).into_iter().find(|(name, _)| *name == call)?;
            let mut out = vec![0; call.room(&card)];
            let image = card.image(call.format());
            assert!(work_itself(|| call.run(side, image, &mut out)).is_some(), "it is not refused");
        }
        [side, "check", card] => {
            let (_, check) = checks::SIDES.into_iter().find(|(name, _)| *name == side)?;
            let (format, image) = card_of(card)?;
            assert!(work_itself(|| check(format, &image)).is_ok(), "an accepted card");
        }
        _ => return None,
    }
    Some(())
}

/// What is counted, by the name of this function.
#[inline(never)]
fn work_itself<T>(work: impl FnOnce() -> T) -> T {
    black_box(work())
}

/// Cards by their names: the full ones of 8 MB and of 64 MiB in both formats, 40 directories of 50 entries on the first
/// size and one of 60,000 on the second, fresh ones, and the one that calls are done on.
fn card_of(name: &str) -> Option<(Format, Vec<u8>)> {
    Some(match name {
        "full" => (Raw, full(Raw)),
        "full-plain" => (Plain, full(Plain)),
        "full-64" => (Raw, full_great(Raw)),
        "full-64-plain" => (Plain, full_great(Plain)),
        "many-50" => (Raw, many_directories(Raw, Names::Ascending).image),
        "one-60000" => (Raw, great_directory(Raw, Names::Ascending).image),
        "fresh" => (Raw, standard(Raw)),
        "fresh-64" => (Raw, fresh(Raw, MOST_CLUSTERS)),
        "called" => (Raw, Card::full().raw),
        _ => return None,
    })
}
