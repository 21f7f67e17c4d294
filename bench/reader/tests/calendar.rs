//! The shifting rule of document 02's request 8: days, months and years carry, and the opposite shift takes back.

use reader::build::stamped;
use reader::calendar::{shifted, text};
use reader::rng::Rng;
use reader::time::{stamp, valid, Time};

/// Days from 1 January 1980 to 1 January 10000: 8,020 years, of them 1,945 leap years.
const ALL_DAYS: i64 = 8020 * 365 + 1945;
/// Most minutes between two times.
const WIDEST: i64 = 1440 * ALL_DAYS - 1;

/// The stamp of a time as it is printed.
fn at(text: &str) -> Time {
    let parts: Vec<u16> = text.split(['-', ' ', ':']).map(|part| part.parse().expect("a number")).collect();
    let byte = |place: usize| parts[place] as u8;
    stamp(parts[0], byte(1), byte(2), byte(3), byte(4), byte(5))
}

/// Every shift leads from the first time to the other one, and the opposite shift back.
fn all_lead(examples: &[(&str, i64, &str)]) {
    for &(before, minutes, after) in examples {
        assert_eq!(text(&at(before), minutes), after, "{before} and {minutes}");
        assert_eq!(shifted(&at(before), minutes), Some(at(after)), "{before} and {minutes}");
        assert_eq!(shifted(&at(after), -minutes), Some(at(before)), "{after} and {}", -minutes);
    }
}

#[test]
fn within_a_day() {
    all_lead(&[
        ("2000-02-29 12:34:56", 0, "2000-02-29 12:34:56"),
        ("2000-02-29 12:34:56", 300, "2000-02-29 17:34:56"),
        ("2000-02-29 12:34:56", 25, "2000-02-29 12:59:56"),
        ("2000-02-29 12:34:56", 26, "2000-02-29 13:00:56"),
        ("2000-02-29 12:34:56", -34, "2000-02-29 12:00:56"),
        ("2000-02-29 12:34:56", -35, "2000-02-29 11:59:56"),
        ("2003-10-05 00:00:00", 1439, "2003-10-05 23:59:00"),
        ("2003-10-05 21:00:07", -1260, "2003-10-05 00:00:07"),
        ("2003-10-05 18:59:59", 300, "2003-10-05 23:59:59"),
    ]);
}

#[test]
fn ends_of_years() {
    all_lead(&[
        ("1999-12-31 23:59:59", 0, "1999-12-31 23:59:59"),
        ("2000-01-01 00:00:00", 0, "2000-01-01 00:00:00"),
        ("1999-12-31 23:59:59", 1, "2000-01-01 00:00:59"),
        ("1999-12-31 19:00:00", 300, "2000-01-01 00:00:00"),
        ("1999-12-31 23:59:59", 300, "2000-01-01 04:59:59"),
        ("2001-01-01 00:00:00", -1, "2000-12-31 23:59:00"),
        ("2001-01-01 00:00:00", -1260, "2000-12-31 03:00:00"),
        ("2001-01-01 20:59:59", -1260, "2000-12-31 23:59:59"),
        ("2000-12-31 12:00:00", 1440, "2001-01-01 12:00:00"),
    ]);
}

#[test]
fn ends_of_months() {
    all_lead(&[
        ("2001-01-31 22:00:00", 300, "2001-02-01 03:00:00"),
        ("2001-03-31 19:30:00", 300, "2001-04-01 00:30:00"),
        ("2001-04-30 19:30:00", 300, "2001-05-01 00:30:00"),
        ("2001-07-31 20:00:01", 300, "2001-08-01 01:00:01"),
        ("2001-08-31 20:00:01", 300, "2001-09-01 01:00:01"),
        ("2001-09-01 20:30:02", -1260, "2001-08-31 23:30:02"),
        ("2001-08-01 05:06:07", -1260, "2001-07-31 08:06:07"),
        ("2001-10-01 00:00:00", -1260, "2001-09-30 03:00:00"),
        ("2001-12-01 00:00:00", -1260, "2001-11-30 03:00:00"),
    ]);
}

#[test]
fn ends_of_february() {
    for year in [2000, 2024] {
        for (minutes, before, after) in [
            (300, "02-28 20:00:00", "02-29 01:00:00"),
            (300, "02-29 20:00:00", "03-01 01:00:00"),
            (-1260, "03-01 10:00:00", "02-29 13:00:00"),
            (-1260, "02-29 10:00:00", "02-28 13:00:00"),
            (0, "02-29 23:59:59", "02-29 23:59:59"),
        ] {
            all_lead(&[(&format!("{year}-{before}"), minutes, &format!("{year}-{after}"))]);
        }
    }
    for year in [2023, 2100] {
        for (minutes, before, after) in [
            (300, "02-28 20:00:00", "03-01 01:00:00"),
            (300, "02-28 18:59:59", "02-28 23:59:59"),
            (-1260, "03-01 10:00:00", "02-28 13:00:00"),
            (-1260, "03-02 10:00:00", "03-01 13:00:00"),
            (0, "02-28 23:59:59", "02-28 23:59:59"),
        ] {
            all_lead(&[(&format!("{year}-{before}"), minutes, &format!("{year}-{after}"))]);
        }
    }
}

#[test]
fn far_shifts() {
    all_lead(&[
        ("2000-02-29 12:34:56", 146_097 * 1440, "2400-02-29 12:34:56"),
        ("2000-03-01 12:34:56", 366 * 1440 - 1440, "2001-03-01 12:34:56"),
        ("1999-03-01 12:34:56", 366 * 1440, "2000-03-01 12:34:56"),
        ("2001-01-01 00:00:00", 1440 * (36_524 - 1), "2100-12-31 00:00:00"),
        ("1980-01-01 00:00:59", WIDEST, "9999-12-31 23:59:59"),
    ]);
    assert_eq!(WIDEST, 4_218_112_799);
}

/// Before 1980 and after 9999 nothing is told, however far away.
#[test]
fn beyond_the_years() {
    all_lead(&[
        ("1980-01-01 21:00:00", -1260, "1980-01-01 00:00:00"),
        ("9999-12-31 18:59:59", 300, "9999-12-31 23:59:59"),
        ("1980-01-01 00:00:00", 0, "1980-01-01 00:00:00"),
        ("9999-12-31 23:59:59", 0, "9999-12-31 23:59:59"),
    ]);
    for (before, minutes) in [
        ("1980-01-01 20:59:59", -1260),
        ("1980-01-01 00:00:59", -1),
        ("1980-01-01 00:00:00", -1440),
        ("9999-12-31 19:00:00", 300),
        ("9999-12-31 23:59:00", 1),
        ("9999-12-31 23:59:00", 1440),
        ("1980-01-01 00:00:59", WIDEST + 1),
        ("9999-12-31 23:59:00", -WIDEST - 1),
        ("2000-02-29 23:59:59", i64::MAX),
        ("2000-02-29 00:00:00", i64::MIN),
        ("2000-02-29 23:59:59", i64::MAX - 1439),
        ("2000-02-29 00:00:00", i64::MIN + 1439),
    ] {
        assert_eq!(shifted(&at(before), minutes), None, "{before} and {minutes}");
        assert_eq!(text(&at(before), minutes), "unknown", "{before} and {minutes}");
    }
}

/// A stamp that breaks the time rule in any part is unknown at every shift, also where the carry would mend it.
#[test]
fn invalid_stamps() {
    let mut stamps = stamped::invalid();
    let good = stamp(2001, 4, 30, 12, 34, 56);
    for (place, value) in [(0, 1), (0, 0xFF), (1, 60), (1, 0xFF), (2, 60), (2, 0xFF), (3, 24), (3, 0xFF)] {
        stamps.push(good);
        stamps.last_mut().expect("one more")[place] = value;
    }
    for (place, value) in [(4, 0), (4, 31), (4, 0xFF), (5, 0), (5, 13), (5, 0xFF)] {
        stamps.push(good);
        stamps.last_mut().expect("one more")[place] = value;
    }
    for (year, month, day) in [(2023, 2, 29), (2100, 2, 29), (2000, 2, 30), (2001, 9, 31), (2001, 12, 32)] {
        stamps.push(stamp(year, month, day, 12, 34, 56));
    }
    for year in [0, 1979, 10_000, 0xFFFF] {
        stamps.push(stamp(year, 6, 15, 12, 34, 56));
    }
    stamps.extend([[0; 8], [0xFF; 8]]);
    for stamp in stamps {
        for minutes in [0, -1260, 300, 1, -1, 1440, -1440, i64::MIN, i64::MAX] {
            assert_eq!(shifted(&stamp, minutes), None, "{stamp:?} and {minutes}");
            assert_eq!(text(&stamp, minutes), "unknown", "{stamp:?} and {minutes}");
        }
    }
    for stamp in [vec![good], stamped::valid()].concat() {
        assert_eq!(shifted(&stamp, 0), Some(stamp));
    }
}

/// Day by day from 1980 to 2100 and back: every month has its days, all together are 44,195.
#[test]
fn every_day() {
    let mut days = 0;
    let mut time = at("1980-01-01 12:34:56");
    for year in 1980..=2100 {
        let february = if year % 4 == 0 && year != 2100 { 29 } else { 28 };
        for (month, length) in (1..).zip([31, february, 31, 30, 31, 30, 31, 31, 30, 31, 30, 31]) {
            for day in 1..=length {
                assert_eq!(time, stamp(year, month, day, 12, 34, 56));
                let next = shifted(&time, 1440).unwrap();
                assert_eq!(shifted(&next, -1440), Some(time));
                time = next;
                days += 1;
            }
        }
    }
    assert_eq!((days, time), (44_195, at("2101-01-01 12:34:56")));
    assert_eq!(shifted(&time, -44_195 * 1440), Some(at("1980-01-01 12:34:56")));
}

/// Any valid time; days at the ends of months and years at the ends of all come more often.
fn random_valid(rng: &mut Rng) -> Time {
    loop {
        let year = if rng.chance(1, 8) { *rng.pick(&[1980, 1981, 9998, 9999]) } else { rng.between(1980, 9999) };
        let day = if rng.chance(1, 2) { *rng.pick(&[1, 28, 29, 30, 31]) } else { rng.between(1, 31) };
        let (month, hour) = (rng.between(1, 12) as u8, rng.below(24) as u8);
        let time = stamp(year as u16, month, day as u8, hour, rng.below(60) as u8, rng.below(60) as u8);
        if valid(&time) {
            return time;
        }
    }
}

/// Minutes since 1980, by the lengths of whole years and months.
fn minutes_since_1980(time: &Time) -> i64 {
    let [_, _, minute, hour, day, month, low, high] = time.map(i64::from);
    let year = low + 256 * high;
    let leap_days = |year: i64| year / 4 - year / 100 + year / 400;
    let in_leap_year = leap_days(year) - leap_days(year - 1);
    let before = [0, 31, 59, 90, 120, 151, 181, 212, 243, 273, 304, 334][month as usize - 1];
    let of_year = before + if month > 2 { in_leap_year } else { 0 } + day - 1;
    let days = 365 * (year - 1980) + leap_days(year - 1) - leap_days(1979) + of_year;
    60 * (24 * days + hour) + minute
}

/// Random times and shifts: the shifted time is so many minutes away, it is told where it lies in the years and only
/// there, and the opposite shift takes back.
fn shift_and_back(seed: u64, samples: usize, farthest: usize) -> [usize; 2] {
    let mut rng = Rng::new(seed);
    let mut seen = [0, 0];
    for _ in 0..samples {
        let time = random_valid(&mut rng);
        let minutes = rng.between(0, 2 * farthest) as i64 - farthest as i64;
        let expected = minutes_since_1980(&time) + minutes;
        let after = shifted(&time, minutes);
        assert_eq!(after.is_some(), (0..=WIDEST).contains(&expected), "{time:?} and {minutes}");
        if let Some(after) = after {
            assert!(valid(&after) && after[1] == time[1], "{time:?} and {minutes}");
            assert_eq!(minutes_since_1980(&after), expected, "{time:?} and {minutes}");
            assert_eq!(shifted(&after, -minutes), Some(time), "{after:?} and {}", -minutes);
        }
        seen[usize::from(after.is_some())] += 1;
    }
    seen
}

#[test]
fn random_shifts() {
    for (seed, (samples, farthest)) in
        [(200_000, 1260), (50_000, 100_000), (2_000, 20_000_000), (400, 4_300_000_000)].into_iter().enumerate()
    {
        let start = std::time::Instant::now();
        let [unknown, told] = shift_and_back(8_000_000 + seed as u64, samples, farthest);
        println!("to {farthest} minutes: {told} told, {unknown} unknown, {:?}", start.elapsed());
        assert!(told > samples / 10 && unknown > 0, "{told} {unknown}");
    }
}
