//! A directory of 4,000 entries, and one of 60,000: a command checks the card a few times, not once an entry; but `ls`,
//! which shows what is locked, as often as it shows entries.

mod common;

use std::time::{Duration, Instant};

use common::{crowd, Folder};

/// The shortest of some runs.
fn shortest(folder: &Folder, words: &[&str]) -> Duration {
    let run = |_| {
        let start = Instant::now();
        folder.run(words).done();
        start.elapsed()
    };
    (0..5).map(run).min().expect("a run")
}

/// Two checks and the parsing take well under ten times what one check takes; one check an entry, thousands of times.
#[test]
fn a_few_checks() {
    a_few_checks_of(4_000);
}

/// The same on the largest card.
#[test]
fn a_few_checks_of_many() {
    a_few_checks_of(60_000);
}

fn a_few_checks_of(entries: usize) {
    let folder = Folder::new();
    folder.write("card", &crowd(entries));
    let last = format!("/SAVE/file{}", entries - 1);
    let one = shortest(&folder, &["check", "card"]);
    let runs: [&[&str]; 7] = [
        &["ls", "card", &last, "--zone", "+01:00"],
        &["ls", "card"],
        &["list", "card"],
        &["find", "card", &last],
        &["cat", "card", &last],
        &["get", "card", &last, "-"],
        &["mkdir", "card", "/D"],
    ];
    for words in &runs[..6] {
        let took = shortest(&folder, words);
        println!("{words:?}: {took:?}, one check {one:?}");
        assert!(took < 10 * one, "{words:?} took {took:?}, a check {one:?}");
    }
    let start = Instant::now();
    folder.run(runs[6]).done();
    assert!(start.elapsed() < 50 * one, "{:?}", start.elapsed());
}

/// A check for each entry shown, one for its directory and one for the listing, and the start of one command: fewer
/// starts and reads of the image than so many commands have.
#[test]
fn ls_of_many() {
    const ENTRIES: u32 = 1_000;
    let folder = Folder::new();
    folder.write("card", &crowd(ENTRIES as usize));
    let one = shortest(&folder, &["check", "card"]);
    let start = Instant::now();
    let text = folder.run(&["ls", "card", "/SAVE"]).text();
    let took = start.elapsed();
    println!("ls: {took:?}, one check {one:?}");
    assert!(took < (ENTRIES + 2) * one * 3 / 2, "{took:?}, a check {one:?}");
    let named = |number: u32| format!("file  0 bytes  file{number:04}");
    assert!(text.lines().eq((0..ENTRIES).map(named)));
}
