//! The listing in the shop's own time, line by line: the library, the reader, and a calendar by numbers of days.

use compare::format::Number;
use compare::listing::{list, whole_at};
use reader::build::stamped::stamped;
use reader::build::{bad, good, random, vandal};
use reader::rng::Rng;
use reader::time::{days_in, stamp, valid, Time};
use reader::Format;

/// The ends of the shifts, and those next to them and to none.
const SHIFTS: [i32; 9] = [-1260, -1259, -540, -1, 0, 1, 60, 299, 300];

/// Files of a card: two sides and nine shifts of each take about a second.
const MOST: usize = 6000;

/// Days from 1 March of year 0, by the closed form: a year begins in March, so that a leap day is its last.
fn number(year: i64, month: i64, day: i64) -> i64 {
    let (year, month) = if month > 2 { (year, month - 3) } else { (year - 1, month + 9) };
    365 * year + year / 4 - year / 100 + year / 400 + (153 * month + 2) / 5 + day - 1
}

/// The date of such a number: the greatest year, month and day that do not lie beyond it.
fn date(days: i64) -> (i64, i64, i64) {
    let mut year = days / 366;
    while number(year + 1, 1, 1) <= days {
        year += 1;
    }
    let month = (1..=12).rev().find(|&month| number(year, month, 1) <= days).expect("January begins the year");
    (year, month, days - number(year, month, 1) + 1)
}

/// The stamp as text by these numbers, of a valid time.
fn by_number(time: &Time, minutes: i32) -> String {
    let [_, second, minute, hour, day, month, low, high] = time.map(i64::from);
    let total = 1440 * number(low + 256 * high, month, day) + 60 * hour + minute + i64::from(minutes);
    let ((year, month, day), minute) = (date(total.div_euclid(1440)), total.rem_euclid(1440));
    if !(1980..=9999).contains(&year) {
        return "unknown".to_string();
    }
    format!("{year:04}-{month:02}-{day:02} {:02}:{:02}:{second:02}", minute / 60, minute % 60)
}

fn expected(time: &Time, minutes: i32) -> String {
    if valid(time) {
        by_number(time, minutes)
    } else {
        "unknown".to_string()
    }
}

/// Cards with these stamps: the library's listing is the reader's, and each file's line ends as the numbers say.
fn all(stamps: &[Time], shifts: &[i32]) {
    for (format, part) in Format::BOTH.into_iter().cycle().zip(stamps.chunks(MOST)) {
        let image = stamped(format, part);
        for &minutes in shifts {
            let text = whole_at(format, &image, minutes);
            assert!(text == reader::list(format, &image, minutes), "the {format:?} listings differ at {minutes}");
            let mut files = text.lines().filter(|line| line.starts_with("f "));
            for time in part {
                let line = files.next().expect("a line for each file");
                assert!(line.ends_with(&format!(" {}", expected(time, minutes))), "{line}, {time:?}, {minutes}");
            }
            assert_eq!(files.next(), None);
        }
    }
}

/// A day's first and last second.
fn ends(year: u16, month: u8, day: u8) -> [Time; 2] {
    [stamp(year, month, day, 0, 0, 0), stamp(year, month, day, 23, 59, 59)]
}

#[test]
fn every_day_from_1980_to_2100() {
    let mut stamps = Vec::new();
    for year in 1980..=2100 {
        for month in 1..=12 {
            (1..=days_in(year, month)).for_each(|day| stamps.extend(ends(year, month, day)));
        }
    }
    assert_eq!(stamps.len(), 2 * 44_195);
    all(&stamps, &[-1260, 0, 300]);
}

/// Both ends of every year, and the days around 28 February.
#[test]
fn every_year_to_9999() {
    let days = [(1, 1), (2, 28), (3, 1), (12, 31)];
    let mut stamps = Vec::new();
    for year in 1980..=9999 {
        days.iter().for_each(|&(month, day)| stamps.extend(ends(year, month, day)));
    }
    all(&stamps, &[-1260, 300]);
}

/// 29 February of every year, which most have not.
#[test]
fn leap_days() {
    let stamps: Vec<Time> = (1980..=9999).flat_map(|year| ends(year, 2, 29)).collect();
    assert_eq!(stamps.iter().filter(|stamp| valid(stamp)).count(), 2 * 1945);
    all(&stamps, &[-1260, 0, 300]);
}

/// Every number of minutes that is allowed, and some beyond, on times at the calendar's ends and at midnights.
#[test]
fn every_shift() {
    let mut stamps = Vec::new();
    for (year, month, day) in [(1980, 1, 1), (1980, 1, 2), (9999, 12, 30), (9999, 12, 31), (2000, 2, 29), (2100, 2, 28)]
    {
        for (hour, minute) in [(0, 0), (0, 1), (4, 59), (5, 0), (12, 0), (18, 59), (19, 0), (20, 59), (21, 0), (23, 59)]
        {
            stamps.push(stamp(year, month, day, hour, minute, 30));
        }
    }
    all(&stamps, &(-1260..=300).collect::<Vec<_>>());
    for format in Format::BOTH {
        let image = stamped(format, &stamps);
        for minutes in (-1280..-1260).chain(301..320).chain([i32::MIN, i32::MAX, -65_536 - 1260, 65_536, 1 << 30]) {
            assert_eq!(whole_at(format, &image, minutes), "refused 17\n", "{minutes}");
            assert_eq!(reader::list(format, &image, minutes), "refused 17\n", "{minutes}");
        }
    }
}

/// Every value of every byte of a stamp, the others valid.
#[test]
fn invalid_stamps() {
    let mut stamps = Vec::new();
    for base in [stamp(2000, 2, 29, 12, 34, 56), stamp(2023, 4, 30, 0, 0, 0), stamp(9999, 12, 31, 23, 59, 59)] {
        for place in 0..8 {
            for byte in 0..=255 {
                let mut time = base;
                time[place] = byte;
                stamps.push(time);
            }
        }
    }
    let invalid = stamps.iter().filter(|stamp| !valid(stamp)).count();
    assert!((4_000..6_144).contains(&invalid), "{invalid} of 6,144 are invalid");
    all(&stamps, &SHIFTS);
}

#[test]
fn random_times() {
    let mut rng = Rng::new(8);
    let stamps: Vec<Time> = (0..MOST)
        .map(|_| {
            let (year, month) = (1980 + rng.below(8020) as u16, 1 + rng.below(12) as u8);
            let day = 1 + rng.below(usize::from(days_in(year, month))) as u8;
            stamp(year, month, day, rng.below(24) as u8, rng.below(60) as u8, rng.below(60) as u8)
        })
        .collect();
    assert!(stamps.iter().all(valid));
    let shifts: Vec<i32> = (0..40).map(|_| rng.below(1561) as i32 - 1260).collect();
    all(&stamps, &shifts);
}

/// 17 before anything else: with images of no length, bad cards, and numbers that name no format.
#[test]
fn before_anything_else() {
    let wrong = [-1261, 301, i32::MIN, i32::MAX];
    for format in Format::BOTH {
        let cards = bad::all(format).into_iter().map(|card| card.image);
        for image in cards.chain([Vec::new(), vec![0; 100]]) {
            for minutes in wrong {
                assert_eq!(whole_at(format, &image, minutes), "refused 17\n");
                assert_eq!(reader::list(format, &image, minutes), "refused 17\n");
            }
            for minutes in SHIFTS {
                let text = whole_at(format, &image, minutes);
                assert!(text.starts_with("refused ") && text != "refused 17\n", "{text}");
                assert_eq!(text, reader::list(format, &image, minutes));
            }
        }
    }
    for number in [Number(2), Number(17), Number(u32::MAX)] {
        assert_eq!(whole_at(number, &[], 301), "refused 17\n");
        assert_eq!(whole_at(number, &[], 300), "refused 1\n");
    }
}

/// A refusal's line fills a short buffer as far as it goes and nothing else.
#[test]
fn short_buffers() {
    let image = stamped(Format::Raw, &[stamp(2000, 2, 29, 12, 34, 56)]);
    for minutes in [-1260, 0, 300, 301] {
        let whole = whole_at(Format::Raw, &image, minutes).into_bytes();
        for room in 0..whole.len() + 3 {
            let (text, length) = list(Format::Raw, &image, minutes, room);
            assert_eq!((text.as_slice(), length), (&whole[..room.min(whole.len())], whole.len()));
        }
    }
}

/// Good, random and vandalised cards at both ends.
#[test]
fn other_cards() {
    for format in Format::BOTH {
        let good = good::all(format).into_iter().map(|card| card.image);
        let random = (0..150).map(|seed| random::random(format, seed).image);
        let vandalised = (0..150).map(|seed| vandal::vandalised(format, seed));
        for image in good.chain(random).chain(vandalised) {
            for minutes in [-1260, -540, 300] {
                assert!(
                    whole_at(format, &image, minutes) == reader::list(format, &image, minutes),
                    "{format:?}, {minutes}"
                );
            }
        }
    }
}
