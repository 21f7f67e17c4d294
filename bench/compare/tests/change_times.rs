//! The time that a change takes: every field at and past its limits, the days of each month, leap years.

mod common;

use common::changes::{five, kind, Changes};
use reader::build::good::sample;
use reader::build::usual_time;
use reader::time::{stamp, Time};
use reader::{Format, Refusal};

/// A valid time is taken and stands in the entry afterwards; any other gives 14.
fn judge(changes: &mut Changes, time: Time, is_valid: bool) {
    let [create, _, _, make, _] = five(b"/new", &time, b"bytes");
    let [_, replace, ..] = five(b"/F", &time, b"bytes");
    for change in [create, replace, make] {
        let mut image = sample(changes.format).finish();
        let answer = changes.apply(&mut image, &change, || format!("time {time:?}"));
        let expected = if is_valid { Ok(()) } else { Err(Refusal::number(14)) };
        assert_eq!(answer, expected, "time {time:?}");
        if is_valid {
            let entry = compare::find(changes.format, &image, change.path()).expect("it stands there");
            let created = if kind(&change) == 1 { usual_time() } else { time };
            assert_eq!((entry.created, entry.modified), (created, time));
        }
    }
}

/// Each byte but the year's, through all its values.
#[test]
fn fields() {
    for format in Format::BOTH {
        let mut changes = Changes::new(format);
        for value in 0..=255 {
            let limits = [0..=0, 0..=59, 0..=59, 0..=23, 1..=31, 1..=12];
            for (place, limit) in limits.into_iter().enumerate() {
                let mut time = stamp(2001, 1, 1, 0, 0, 0);
                time[place] = value;
                judge(&mut changes, time, limit.contains(&value));
            }
        }
        changes.met([0, 14], 300);
    }
}

#[test]
fn years() {
    for format in Format::BOTH {
        let mut changes = Changes::new(format);
        for year in [0, 1, 255, 1899, 1979, 1980, 1981, 2255, 2256, 9998, 9999, 10000, 10001, 0x8000, 0xFFFF] {
            judge(&mut changes, stamp(year, 12, 31, 23, 59, 59), (1980..=9999).contains(&year));
        }
        changes.met([0, 14], 15);
    }
}

/// Leap years are those of the Gregorian calendar.
#[test]
fn days_of_months() {
    for format in Format::BOTH {
        let mut changes = Changes::new(format);
        let days = [31, 28, 31, 30, 31, 30, 31, 31, 30, 31, 30, 31];
        for (year, leap) in [
            (1980, 1),
            (1981, 0),
            (2000, 1),
            (2023, 0),
            (2024, 1),
            (2100, 0),
            (2200, 0),
            (2300, 0),
            (2400, 1),
            (4000, 1),
            (9996, 1),
            (9999, 0),
        ] {
            for (month, mut days) in (1..=12).zip(days) {
                days += if month == 2 { leap } else { 0 };
                for (day, is_valid) in [(0, false), (1, true), (days, true), (days + 1, false)] {
                    judge(&mut changes, stamp(year, month, day, 7, 8, 9), is_valid);
                }
            }
        }
        changes.met([0, 14], 800);
    }
}
