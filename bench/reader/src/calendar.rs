//! Stamps in another place's time: a shift by minutes, carried from date to date, and what the listing prints.

use crate::page::half;
use crate::time::{days_in, stamp, valid, Time, YEARS};

/// What stands for a time that can't be told.
pub const UNKNOWN: &str = "unknown";

/// Minutes of a day.
const DAY: i64 = 24 * 60;

#[derive(Clone, Copy)]
struct Date {
    year: u16,
    month: u8,
    day: u8,
}

impl Date {
    fn next(self) -> Date {
        let Date { year, month, day } = self;
        if day < days_in(year, month) {
            Date { year, month, day: day + 1 }
        } else if month < 12 {
            Date { year, month: month + 1, day: 1 }
        } else {
            Date { year: year + 1, month: 1, day: 1 }
        }
    }

    fn previous(self) -> Date {
        let Date { year, month, day } = self;
        if day > 1 {
            Date { year, month, day: day - 1 }
        } else if month > 1 {
            Date { year, month: month - 1, day: days_in(year, month - 1) }
        } else {
            Date { year: year - 1, month: 12, day: 31 }
        }
    }

    /// The date so many days later, or earlier where they are below zero; nothing as soon as the years are left.
    fn walk(mut self, days: i64) -> Option<Date> {
        for _ in 0..days.unsigned_abs() {
            self = if days > 0 { self.next() } else { self.previous() };
            if !YEARS.contains(&self.year) {
                return None;
            }
        }
        Some(self)
    }
}

/// The time so many minutes later, or earlier where they are below zero; nothing where the time is invalid or the
/// result lies outside the years 1980 to 9999.
pub fn shifted(time: &Time, minutes: i64) -> Option<Time> {
    if !valid(time) {
        return None;
    }
    let [_, second, minute, hour, day, month, ..] = *time;
    let mut days = minutes.div_euclid(DAY);
    let mut of_day = 60 * i64::from(hour) + i64::from(minute) + minutes.rem_euclid(DAY);
    if of_day >= DAY {
        of_day -= DAY;
        days += 1;
    }
    let date = Date { year: half(time, 6), month, day }.walk(days)?;
    Some(stamp(date.year, date.month, date.day, (of_day / 60) as u8, (of_day % 60) as u8, second))
}

/// The shifted time as `YYYY-MM-DD hh:mm:ss`, or `unknown`.
pub fn text(time: &Time, minutes: i64) -> String {
    let Some(time) = shifted(time, minutes) else {
        return UNKNOWN.to_string();
    };
    let [_, second, minute, hour, day, month, ..] = time;
    let year = half(&time, 6);
    format!("{year:04}-{month:02}-{day:02} {hour:02}:{minute:02}:{second:02}")
}
