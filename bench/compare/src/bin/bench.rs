//! The check side by side: the full cards against their limit, how its time grows with the card and with the number of
//! files, and what an entry costs in directories of any size.

use std::process::ExitCode;

use compare::cards::{entries, full, full_great, great_directory, many_directories, many_files, one_directory, Names};
use compare::checks::{best, ratio, timed, tries, LIMIT, SIDES};
use compare::clock::{per_entry, Spread};
use compare::table::{self, grouped, spread};
use reader::build::{fresh, Layout};
use reader::card::MOST_CLUSTERS;
use reader::Format::{Plain, Raw};

/// Runs of each check on each card; fewer on a card of 64 MiB, and where many cards are timed.
const RUNS: usize = 101;
const GREAT_RUNS: usize = 41;
const ENTRY_RUNS: usize = 31;
const GREAT_ENTRY_RUNS: usize = 9;
/// An entry among 4,000 may cost at most this much of one among 50.
const ENTRY_LIMIT: f64 = 1.5;

/// Clusters of a card of 8 MB, and of all fresh cards.
const STANDARD: usize = 8192;
const SIZES: [usize; 9] = [32, 64, 256, 1024, 4096, STANDARD, 16_384, 32_768, MOST_CLUSTERS];
/// Files on a card of 8 MB, and on one of 64 MiB.
const FILES: [usize; 4] = [500, 1000, 2000, 4000];
const GREAT_FILES: [usize; 3] = [8000, 16_000, 32_000];

const HEADER: &str = "\
The library, the ordinary checker (`bench/checker`) and the independent reader check the same images, in turn, after \
one run that is not measured. Processor time of the thread in ms: the median and, in brackets, the quartiles. All three \
are optimised: the library as `rt lib` builds it, the others with `opt-level = 3`.

Buffers: the image lies in memory, read-only, the same bytes for all. The library clears its own working arrays (table \
256 KiB, cells of names 512 KiB, record of reached clusters) on the stack in each call; checker and reader allocate \
their own on the heap in each call. Nothing is kept between calls.
";

const COLUMNS: [&str; 5] = ["library", "checker", "reader", "library/checker", "library/reader"];

/// The times of all sides on one card.
type Sides = [Spread; 3];

fn main() -> ExitCode {
    println!("{HEADER}");
    let (full_raw, full_64) = (full(Raw), full_great(Raw));
    let [on_full, on_full_64] = full_cards(&full_raw, &full_64);
    let fresh_cards = fresh_cards();
    let fresh = [STANDARD, MOST_CLUSTERS]
        .map(|clusters| fresh_cards[SIZES.iter().position(|&size| size == clusters).expect("one of the sizes")]);

    println!("What an entry with its chain costs on the full cards, the fresh card's time taken off, in ns:");
    let cost = |side: usize| {
        let small = per_entry(on_full[side].median, fresh[0][side].median, entries(Raw, &full_raw));
        let great = per_entry(on_full_64[side].median, fresh[1][side].median, entries(Raw, &full_64));
        vec![SIDES[side].0.into(), format!("{small:.0}"), format!("{great:.0}"), table::ratio(great / small)]
    };
    table::print(&["side", "8 MB", "64 MiB", "ratio"], &[cost(0), cost(1), cost(2)]);

    let (most, worst) = directories(&fresh);
    files(&fresh, &most);

    println!("Limits:\n");
    let limits = [
        ("library/checker on the full card of 8 MB", ratio(&on_full), LIMIT),
        ("library/checker on the full card of 64 MiB", ratio(&on_full_64), LIMIT),
        ("the library's entry among 4,000, of one among 50", worst, ENTRY_LIMIT),
    ];
    for (what, ratio, limit) in limits {
        println!("- {what}: {ratio:.2}, allowed {limit}{}", if ratio > limit { ": ABOVE" } else { "" });
    }
    if limits.iter().all(|(_, ratio, limit)| ratio <= limit) {
        ExitCode::SUCCESS
    } else {
        ExitCode::FAILURE
    }
}

/// The times on one card with their ratios.
fn row(name: impl Into<String>, sides: &Sides) -> Vec<String> {
    let ratios = [ratio(sides), sides[0].over(&sides[2])].map(table::ratio);
    [name.into()].into_iter().chain(sides.iter().map(spread)).chain(ratios).collect()
}

fn head(name: &'static str) -> Vec<&'static str> {
    [name].into_iter().chain(COLUMNS).collect()
}

/// The full cards in both formats; the times of the raw ones.
fn full_cards(raw: &[u8], raw_64: &[u8]) -> [Sides; 2] {
    let tries = [tries(raw, RUNS), tries(raw_64, GREAT_RUNS)];
    let [small, great] = [*best(&tries[0]), *best(&tries[1])];
    let [small_plain] = timed(Plain, [&full(Plain)], RUNS);
    let [great_plain] = timed(Plain, [&full_great(Plain)], GREAT_RUNS);
    println!("The check of the full cards, {RUNS} runs, {GREAT_RUNS} at 64 MiB:");
    let rows = [
        row("8 MB, 2,000 files", &small),
        row("8 MB, plain", &small_plain),
        row("64 MiB, 16,000 files", &great),
        row("64 MiB, plain", &great_plain),
    ];
    table::print(&head("card"), &rows);
    let [small_tries, great_tries] =
        tries.map(|tries| tries.iter().map(|sides| table::ratio(ratio(sides))).collect::<Vec<_>>().join(", "));
    println!(
        "Tries of library/checker, each of twice and three times the runs only where the one before was above {LIMIT}; \
         the table has the best: 8 MB {small_tries}; 64 MiB {great_tries}.\n"
    );
    [small, great]
}

/// Fresh cards of all sizes.
fn fresh_cards() -> [Sides; SIZES.len()] {
    println!("The check of fresh cards by their number of clusters, {RUNS} runs:");
    let times = SIZES.map(|clusters| timed(Raw, [&fresh(Raw, clusters)], RUNS)[0]);
    let rows: Vec<_> = SIZES.iter().zip(&times).map(|(&clusters, sides)| row(grouped(clusters), sides)).collect();
    table::print(&head("clusters"), &rows);
    times
}

/// What an entry costs in directories of 50, 4,000 and 60,000, the fresh cards' times taken off; the times on 60,000 in
/// ascending order, and the library's worst ratio at 4,000.
fn directories(fresh: &[Sides; 2]) -> (Sides, f64) {
    println!(
        "What an entry costs in directories of empty files, the fresh card's time taken off, in ns: 40 of 50, and one \
         of 4,000 or 60,000 with its ratio to that; {ENTRY_RUNS} runs, {GREAT_ENTRY_RUNS} at 60,000:"
    );
    let (mut rows, mut ascending, mut worst) = (vec![], None, 0.0f64);
    for names in Names::ALL {
        let (one, many) = (one_directory(Raw, names), many_directories(Raw, names));
        let most = great_directory(Raw, names);
        let [on_one, on_many] = timed(Raw, [&one.image, &many.image], ENTRY_RUNS);
        let [on_most] = timed(Raw, [&most.image], GREAT_ENTRY_RUNS);
        for (side, (name, _)) in SIDES.into_iter().enumerate() {
            let cost = |on: &Sides, fresh: &Sides, entries| per_entry(on[side].median, fresh[side].median, entries);
            let among_few = cost(&on_many, &fresh[0], many.entries);
            let among_many = cost(&on_one, &fresh[0], one.entries);
            let among_most = cost(&on_most, &fresh[1], most.entries);
            rows.push(vec![
                format!("{}, {name}", format!("{names:?}").to_lowercase()),
                format!("{among_few:.0}"),
                format!("{among_many:.0}"),
                table::ratio(among_many / among_few),
                format!("{among_most:.0}"),
                table::ratio(among_most / among_few),
            ]);
            if side == 0 {
                worst = worst.max(among_many / among_few);
            }
        }
        ascending.get_or_insert(on_most);
    }
    table::print(&["names", "40 of 50", "1 of 4,000", "ratio", "1 of 60,000", "ratio"], &rows);
    (ascending.expect("names in ascending order"), worst)
}

/// Cards by their number of files, up to the directory of 60,000 that has been timed.
fn files(fresh: &[Sides; 2], most: &Sides) {
    println!(
        "The check by the number of files: of one cluster each, 50 to a directory, up to 4,000 on a card of 8 MB and \
         above on one of 64 MiB; 60,000 are those empty ones in one directory. {ENTRY_RUNS} runs, {GREAT_ENTRY_RUNS} at \
         64 MiB. The last column is what a file costs the library, the fresh card's time taken off, in ns:"
    );
    let on = |clusters, files, runs| timed(Raw, [&many_files(Raw, Layout::fresh(clusters), files)], runs)[0];
    let small = FILES.map(|files| (files, 0, on(STANDARD, files, ENTRY_RUNS)));
    let great = GREAT_FILES.map(|files| (files, 1, on(MOST_CLUSTERS, files, GREAT_ENTRY_RUNS)));
    let all = small.into_iter().chain(great).chain([(60_000, 1, *most)]);
    let rows: Vec<_> = all
        .map(|(files, size, sides)| {
            let cost = per_entry(sides[0].median, fresh[size][0].median, files);
            let mut row = row(grouped(files), &sides);
            row.push(format!("{cost:.0}"));
            row
        })
        .collect();
    let head: Vec<_> = head("files").into_iter().chain(["a file"]).collect();
    table::print(&head, &rows);
}
