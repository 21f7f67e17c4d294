//! Times as entries hold them: zero, second, minute, hour, day, month, year (a half).

use std::ops::RangeInclusive;

use crate::page::half;

pub type Time = [u8; 8];

/// The years of valid times.
pub const YEARS: RangeInclusive<u16> = 1980..=9999;

/// Days in each month, for ordinary and for leap years.
const DAYS: [[u8; 12]; 2] =
    [[31, 28, 31, 30, 31, 30, 31, 31, 30, 31, 30, 31], [31, 29, 31, 30, 31, 30, 31, 31, 30, 31, 30, 31]];

fn is_leap(year: u16) -> bool {
    year.is_multiple_of(4) && (!year.is_multiple_of(100) || year.is_multiple_of(400))
}

/// Days of a month, 1 to 12.
pub fn days_in(year: u16, month: u8) -> u8 {
    DAYS[usize::from(is_leap(year))][usize::from(month) - 1]
}

/// Whether a time is valid. One handed to a change is otherwise refused with 14, a stored one is otherwise unknown.
pub fn valid(time: &Time) -> bool {
    let [zero, second, minute, hour, day, month, ..] = *time;
    let year = half(time, 6);
    zero == 0
        && second <= 59
        && minute <= 59
        && hour <= 23
        && (1..=12).contains(&month)
        && YEARS.contains(&year)
        && (1..=days_in(year, month)).contains(&day)
}

/// A time from its parts, unjudged.
pub fn stamp(year: u16, month: u8, day: u8, hour: u8, minute: u8, second: u8) -> Time {
    let [low, high] = year.to_le_bytes();
    [0, second, minute, hour, day, month, low, high]
}

#[cfg(test)]
mod tests {
    use super::*;

    #[test]
    fn leap_days() {
        assert!(valid(&stamp(2000, 2, 29, 0, 0, 0)) && valid(&stamp(2024, 2, 29, 23, 59, 59)));
        assert!(!valid(&stamp(2100, 2, 29, 0, 0, 0)) && !valid(&stamp(2023, 2, 29, 0, 0, 0)));
        assert!(valid(&stamp(2100, 2, 28, 0, 0, 0)) && !valid(&stamp(2000, 2, 30, 0, 0, 0)));
    }

    #[test]
    fn bounds() {
        let good = stamp(1980, 1, 1, 0, 0, 0);
        assert!(valid(&good) && valid(&stamp(9999, 12, 31, 23, 59, 59)));
        for (place, value) in [(0, 1), (1, 60), (2, 60), (3, 24), (4, 0), (4, 32), (5, 0), (5, 13)] {
            let mut bad = good;
            bad[place] = value;
            assert!(!valid(&bad), "byte {place} = {value}");
        }
        assert!(!valid(&stamp(1979, 12, 31, 0, 0, 0)) && !valid(&stamp(10000, 1, 1, 0, 0, 0)));
        assert!(!valid(&stamp(2001, 4, 31, 0, 0, 0)) && valid(&stamp(2001, 8, 31, 0, 0, 0)));
    }
}
