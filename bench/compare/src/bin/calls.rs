//! Whole calls on the full card, library and reader side by side, and the share of the library's check in them.

use std::fmt::Debug;
use std::time::Duration;

use compare::clock::{time_of, Spread};
use compare::table::{self, spread};
use compare::works::{Card, Side, Work};
use reader::build::usual_time;
use reader::Change;
use reader::Format::Raw;

const RUNS: usize = 101;
/// Runs of works that take long, and of reading all files.
const LONG_RUNS: usize = 9;
const ALL_RUNS: usize = 3;
/// Bytes of each file that is created until the card is full, and more files than fit.
const CREATED: usize = 64 * 1024;
const MOST_CREATED: usize = 200;

fn main() {
    println!(
        "Calls on the full card of 8 MB, which has one empty directory more, in the same buffer for both sides. Before \
         each run the card is put back as it was, which is not in the time. A file that is written has 2,500 bytes. \
         The share of the check is the time of the library's check, in turn with the calls, of the time of its call; \
         only the check counts clusters, so that it can be above 100 %. {RUNS} runs, {LONG_RUNS} of conversions and of \
         creating until full, {ALL_RUNS} of reading all:"
    );
    let mut card = Card::full();
    let mut rows = vec![];
    for (name, work) in Work::all(&card) {
        let is_conversion = matches!(work, Work::ToPlain | Work::ToRaw);
        let room = work.room(&card);
        let image = card.image(work.format());
        let times =
            timed(if is_conversion { LONG_RUNS } else { RUNS }, !is_conversion, image, room, |side, image, out| {
                work.run(side, image, out).expect("it is not refused")
            });
        rows.push(row(name, &times));
    }
    rows.push(row(
        &format!("read of all {} files, a check each", table::grouped(card.files.len())),
        &read_all(&mut card),
    ));

    let creates: Vec<Work> = (0..MOST_CREATED).map(create).collect();
    let until_full = |side: Side, image: &mut [u8], out: &mut [u8]| {
        creates.iter().take_while(|create| create.run(side, image, out).is_some()).count()
    };
    let created = until_full(Side::Reader, &mut card.raw.clone(), &mut []);
    let times = timed(LONG_RUNS, false, &card.raw, 0, until_full);
    rows.push(row(&format!("create until full, {created} files of 64 KiB"), &times));
    table::print(&["call", "library", "reader", "library/reader", "share of the check"], &rows);
}

fn create(number: usize) -> Work {
    let path = format!("/NEW{number}").into_bytes();
    Work::Change(Change::Create { path, time: usual_time(), data: vec![0xA5; CREATED] })
}

/// The times of a work, library first, and of the library's check where it has one.
struct Times {
    sides: [Spread; 2],
    check: Option<Spread>,
}

fn check(image: &[u8]) -> Duration {
    let (time, answer) = time_of(|| compare::check(Raw, image));
    answer.expect("the card is accepted");
    time
}

/// A work on both sides in turn and then the check, each on the image as it was, after one run unmeasured. Both sides
/// have to answer and write the same.
fn timed<T: PartialEq + Debug>(
    runs: usize,
    has_check: bool,
    before: &[u8],
    room: usize,
    work: impl Fn(Side, &mut [u8], &mut [u8]) -> T,
) -> Times {
    let (mut sides, mut checks) = ([vec![], vec![]], vec![]);
    let mut image = before.to_vec();
    let mut after = [(); 2].map(|()| (before.to_vec(), vec![0; room]));
    for _ in 0..=runs {
        let mut answers = vec![];
        for (side, (times, (left, out))) in Side::BOTH.into_iter().zip(sides.iter_mut().zip(&mut after)) {
            image.copy_from_slice(before);
            out.fill(0);
            let (time, answer) = time_of(|| work(side, &mut image, out));
            left.copy_from_slice(&image);
            answers.push(answer);
            times.push(time);
        }
        assert_eq!(answers[0], answers[1], "both sides answer the same");
        assert!(after[0] == after[1], "both sides write the same");
        if has_check {
            image.copy_from_slice(before);
            checks.push(check(&image));
        }
    }
    Times { sides: sides.map(measured), check: has_check.then(|| measured(checks)) }
}

/// All but the first run.
fn measured(times: Vec<Duration>) -> Spread {
    let mut times = times[1..].to_vec();
    times.sort();
    Spread::of(&times)
}

/// Every file by a call of its own, and as many checks, in turn.
fn read_all(card: &mut Card) -> Times {
    let reads: Vec<Work> = card.files.iter().map(|path| Work::Read(path.clone())).collect();
    let mut out = vec![0; reads[0].room(card)];
    let (mut sides, mut checks) = ([vec![], vec![]], vec![]);
    for _ in 0..=ALL_RUNS {
        let (mut times, mut checking) = ([Duration::ZERO; 2], Duration::ZERO);
        for read in &reads {
            let [library, reader] = Side::BOTH.map(|side| time_of(|| read.run(side, &mut card.raw, &mut out)));
            assert!(library.1.is_some() && library.1 == reader.1, "both sides read the same");
            times[0] += library.0;
            times[1] += reader.0;
            checking += check(&card.raw);
        }
        sides.iter_mut().zip(times).for_each(|(all, time)| all.push(time));
        checks.push(checking);
    }
    Times { sides: sides.map(measured), check: Some(measured(checks)) }
}

/// A call's times, and the share of the check where it has one.
fn row(name: &str, Times { sides: [library, reader], check }: &Times) -> Vec<String> {
    let share = check.map_or("-".into(), |check| format!("{:.0} %", 100.0 * check.over(library)));
    vec![name.into(), spread(library), spread(reader), table::ratio(library.over(reader)), share]
}
