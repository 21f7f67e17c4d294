//! A card's time as the host knows it. A card holds Japan's time, nine hours ahead of UTC all year.

use std::time::{Duration, SystemTime, UNIX_EPOCH};

use ps2card::Stamp;

const JAPAN_SECONDS: u64 = 9 * 3600;

/// The moment of a stamp; nothing where it is no valid time.
pub fn moment(stamp: &Stamp) -> Option<SystemTime> {
    if !stamp.is_valid() {
        return None;
    }
    let [_, second, minute, hour, day, month, low, high] = stamp.0;
    let days = days_before(u64::from(u16::from_le_bytes([low, high])), u64::from(month)) + u64::from(day) - 1;
    let seconds = days * 86_400 + u64::from(hour) * 3600 + u64::from(minute) * 60 + u64::from(second);
    // A valid stamp is of 1980 or later, so that nine hours can be taken off.
    Some(UNIX_EPOCH + Duration::from_secs(seconds - JAPAN_SECONDS))
}

/// Days from the start of 1970 to that of a month. Years are counted from March, so that a leap day is a year's last.
fn days_before(year: u64, month: u64) -> u64 {
    let (year, since_march) = if month > 2 { (year, month - 3) } else { (year - 1, month + 9) };
    let leap_days = year / 4 - year / 100 + year / 400;
    // Five months from March on have 153 days; 719,468 days lie between 1 March of year 0 and the start of 1970.
    365 * year + leap_days + (153 * since_march + 2) / 5 - 719_468
}

#[cfg(test)]
mod tests {
    use super::*;

    #[test]
    fn moments() {
        for (text, seconds) in [
            ("1980-01-01T09:00:00", 315_532_800),
            ("2000-02-29T21:34:56", 951_827_696),
            ("2001-09-09T10:46:40", 1_000_000_000),
            ("2100-03-01T08:59:59", 4_107_542_399),
            ("2100-03-01T09:00:00", 4_107_542_400),
            ("9999-12-31T23:59:59", 253_402_268_399),
        ] {
            let stamp = Stamp::parse(text).expect("a stamp");
            assert_eq!(moment(&stamp), Some(UNIX_EPOCH + Duration::from_secs(seconds)), "{text}");
        }
        assert_eq!(moment(&Stamp::parse("2100-02-29T00:00:00").expect("of the form")), None);
        assert_eq!(moment(&Stamp([0; 8])), None);
    }

    /// Each day is one day after the one before it, over four centuries.
    #[test]
    fn days_in_a_row() {
        let mut before = None;
        for year in 1980..2401u16 {
            for month in 1..=12 {
                for day in 1..=31 {
                    let [low, high] = year.to_le_bytes();
                    let Some(now) = moment(&Stamp([0, 0, 0, 0, day, month, low, high])) else { continue };
                    if let Some(before) = before {
                        assert_eq!(
                            now.duration_since(before).expect("later").as_secs(),
                            86_400,
                            "{year} {month} {day}"
                        );
                    }
                    before = Some(now);
                }
            }
        }
    }
}
