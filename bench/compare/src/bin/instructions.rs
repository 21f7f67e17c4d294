//! The instructions of the check and of whole calls on each side, as valgrind's callgrind counts them in `once`.

use std::collections::HashMap;
use std::env;
use std::process::Command;

use compare::table;

const SIDES: [&str; 3] = ["library", "checker", "reader"];
/// The cards of `once` that are checked.
const CARDS: [&str; 9] =
    ["full", "full-plain", "fresh", "full-64", "full-64-plain", "fresh-64", "many-50", "one-60000", "called"];
const CALLS: [&str; 11] = [
    "find",
    "step",
    "read",
    "list",
    "create",
    "replace",
    "delete",
    "make directory",
    "remove directory",
    "to plain",
    "to raw",
];

/// What a card takes, or what it takes more than another.
const CHECKED: [(&str, &str, Option<&str>); 8] = [
    ("8 MB, 2,000 files", "full", None),
    ("8 MB, plain", "full-plain", None),
    ("8 MB, codes", "full", Some("full-plain")),
    ("8 MB, fresh", "fresh", None),
    ("64 MiB, 16,000 files", "full-64", None),
    ("64 MiB, plain", "full-64-plain", None),
    ("64 MiB, codes", "full-64", Some("full-64-plain")),
    ("64 MiB, fresh", "fresh-64", None),
];
/// Cards with many entries, and the fresh ones of their sizes.
const ENTRIES: [(&str, &str, &str); 4] = [
    ("8 MB, 2,000 files, with their chains", "full", "fresh"),
    ("64 MiB, 16,000 files, with their chains", "full-64", "fresh-64"),
    ("8 MB, empty files, 40 of 50", "many-50", "fresh"),
    ("64 MiB, empty files, 1 of 60,000", "one-60000", "fresh-64"),
];

fn main() {
    println!(
        "Instructions as callgrind counts them, where each byte of a copy by `rep movsb` is one. The check, in \
         millions; the codes are what the card takes more than the same one without spare bytes:"
    );
    let checked = |card| SIDES.map(|side| counted(&[side, "check", card]));
    let checks: HashMap<&str, [f64; 3]> = CARDS.iter().map(|&card| (card, checked(card))).collect();
    let less = |card: &str, other: &str| [0, 1, 2].map(|side| checks[card][side] - checks[other][side]);
    let columns = |first| [first, "library", "checker", "reader", "library/checker", "library/reader"];
    let rows = CHECKED.map(|(name, card, other)| {
        let counts = other.map_or(checks[card], |other| less(card, other));
        row(name, counts, |count| format!("{:.2}", count / 1e6))
    });
    table::print(&columns("card"), &rows);

    println!("One entry of the check, the fresh card's instructions taken off:");
    let rows = ENTRIES.map(|(name, card, fresh)| {
        let entries: f64 = told(&["entries", card]).trim().parse().expect("a number of entries");
        row(name, less(card, fresh).map(|count| count / entries), |count| table::grouped(count.round() as usize))
    });
    table::print(&columns("entries"), &rows);

    println!("Calls on the full card of 8 MB, in millions, and the share of the library's check:");
    let rows = CALLS.map(|call| {
        let [library, reader] = ["library", "reader"].map(|side| counted(&[side, call]));
        let share = if call.starts_with("to ") { "-".into() } else { percent(checks["called"][0] / library) };
        let [counts, others] = [library, reader].map(|count| format!("{:.2}", count / 1e6));
        vec![call.into(), counts, others, table::ratio(library / reader), share]
    });
    table::print(&["call", "library", "reader", "library/reader", "share of the check"], &rows);
}

fn percent(share: f64) -> String {
    format!("{:.1} %", 100.0 * share)
}

fn row(name: &str, counts: [f64; 3], show: impl Fn(f64) -> String) -> Vec<String> {
    let [library, checker, reader] = counts;
    let ratios = [library / checker, library / reader].map(table::ratio);
    [name.into()].into_iter().chain(counts.map(show)).chain(ratios).collect()
}

/// What `once` prints.
fn told(words: &[&str]) -> String {
    run(Command::new(once()).args(words)).0
}

/// The instructions of one work of `once`.
fn counted(words: &[&str]) -> f64 {
    let mut valgrind = Command::new("valgrind");
    valgrind.args(["--tool=callgrind", "--toggle-collect=once::work_itself*", "--callgrind-out-file=/dev/null"]);
    let (_, report) = run(valgrind.arg(once()).args(words));
    let (_, sum) = report.lines().find_map(|line| line.split_once("Collected :")).expect("callgrind's sum");
    let sum = sum.trim().parse().expect("a number of instructions");
    assert!(sum > 0.0, "{words:?}: nothing was counted");
    sum
}

/// The program beside this one.
fn once() -> std::path::PathBuf {
    env::current_exe().expect("this program's path").with_file_name("once")
}

/// What a program that has to succeed prints, on both streams.
fn run(command: &mut Command) -> (String, String) {
    let output = command.output().unwrap_or_else(|error| panic!("{command:?}: {error}"));
    let [out, errors] = [output.stdout, output.stderr].map(|bytes| String::from_utf8_lossy(&bytes).into_owned());
    assert!(output.status.success(), "{command:?}: {errors}");
    (out, errors)
}
