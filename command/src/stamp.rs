//! Times as a card holds them: eight bytes, in Japan time.

use std::fmt;
use std::time::{SystemTime, UNIX_EPOCH};

/// Eight bytes: zero, second, minute, hour, day, month, and the year as a little-endian half, in Japan's time. Any bytes
/// may stand here; a change refuses those that are no time from 1980 to 9999.
///
/// ```
/// use ps2card::Stamp;
///
/// let stamp = Stamp::parse("2000-02-29T12:34:56").unwrap();
/// assert_eq!(stamp.0, [0, 56, 34, 12, 29, 2, 0xD0, 0x07]);
/// assert!(stamp.is_valid() && !Stamp::parse("2100-02-29T12:34:56").unwrap().is_valid());
/// assert_eq!(stamp.to_string(), "2000-02-29T12:34:56");
/// ```
#[derive(Clone, Copy, Debug, Default, PartialEq, Eq)]
pub struct Stamp(pub [u8; 8]);

/// Japan is nine hours ahead all year.
const JAPAN_SECONDS: u64 = 9 * 3600;

impl Stamp {
    /// The time now, in Japan.
    pub fn now() -> Stamp {
        let elapsed = SystemTime::now().duration_since(UNIX_EPOCH).map_or(0, |time| time.as_secs());
        Stamp::of_seconds(elapsed + JAPAN_SECONDS)
    }

    /// The date that many seconds after the start of 1970.
    fn of_seconds(seconds: u64) -> Stamp {
        let (mut days, second) = (seconds / 86_400, seconds % 86_400);
        let mut year = 1970;
        while days >= year_days(year) {
            days -= year_days(year);
            year += 1;
        }
        let mut month = 1;
        while days >= u64::from(month_days(year, month)) {
            days -= u64::from(month_days(year, month));
            month += 1;
        }
        let clock = [second % 60, second / 60 % 60, second / 3600].map(|part| part as u8);
        Stamp::of(year, month, days as u8 + 1, clock)
    }

    fn of(year: u16, month: u8, day: u8, clock: [u8; 3]) -> Stamp {
        let [second, minute, hour] = clock;
        let [low, high] = year.to_le_bytes();
        Stamp([0, second, minute, hour, day, month, low, high])
    }

    /// `YYYY-MM-DDThh:mm:ss`, or `0x` and 16 hex digits. Nothing for text of another form; a date that no calendar
    /// has is still read, for the library to judge.
    pub fn parse(text: &str) -> Option<Stamp> {
        match text.strip_prefix("0x") {
            Some(digits) => parse_hex(digits.as_bytes()),
            None => parse_date(text.as_bytes()),
        }
    }

    /// Whether it is a time by document 01's rule.
    pub fn is_valid(&self) -> bool {
        let [zero, second, minute, hour, day, month, low, high] = self.0;
        let year = u16::from_le_bytes([low, high]);
        let clock = zero == 0 && second <= 59 && minute <= 59 && hour <= 23;
        clock
            && (1980..=9999).contains(&year)
            && (1..=12).contains(&month)
            && (1..=month_days(year, month)).contains(&day)
    }
}

fn parse_date(text: &[u8]) -> Option<Stamp> {
    let (year, [month, day, hour, minute, second]) = date_parts(text, b'T')?;
    Some(Stamp::of(year, month, day, [second, minute, hour]))
}

/// The year, and month, day, hour, minute and second, of a text `YYYY-MM-DDThh:mm:ss` with this byte for its T.
pub(crate) fn date_parts(text: &[u8], between: u8) -> Option<(u16, [u8; 5])> {
    let form = b"dddd-dd-ddTdd:dd:dd";
    let fits = |(&byte, &place): (&u8, &u8)| match place {
        b'd' => byte.is_ascii_digit(),
        b'T' => byte == between,
        _ => byte == place,
    };
    if text.len() != form.len() || !text.iter().zip(form).all(fits) {
        return None;
    }
    let number = |at: usize, digits: usize| {
        text[at..at + digits].iter().fold(0u16, |value, digit| 10 * value + u16::from(digit - b'0'))
    };
    Some((number(0, 4), [5, 8, 11, 14, 17].map(|at| number(at, 2) as u8)))
}

fn parse_hex(digits: &[u8]) -> Option<Stamp> {
    if digits.len() != 16 {
        return None;
    }
    let mut bytes = [0; 8];
    for (byte, pair) in bytes.iter_mut().zip(digits.chunks(2)) {
        let digit = |at: usize| char::from(pair[at]).to_digit(16);
        *byte = (16 * digit(0)? + digit(1)?) as u8;
    }
    Some(Stamp(bytes))
}

fn is_leap(year: u16) -> bool {
    year.is_multiple_of(4) && (!year.is_multiple_of(100) || year.is_multiple_of(400))
}

fn year_days(year: u16) -> u64 {
    365 + u64::from(is_leap(year))
}

/// The days of a month from 1 to 12.
fn month_days(year: u16, month: u8) -> u8 {
    match month {
        2 => 28 + u8::from(is_leap(year)),
        4 | 6 | 9 | 11 => 30,
        _ => 31,
    }
}

impl fmt::Display for Stamp {
    /// As `--stamp` takes it: the date, or the eight bytes in hex where it is no time.
    fn fmt(&self, out: &mut fmt::Formatter<'_>) -> fmt::Result {
        let [_, second, minute, hour, day, month, low, high] = self.0;
        if self.is_valid() {
            let year = u16::from_le_bytes([low, high]);
            return write!(out, "{year:04}-{month:02}-{day:02}T{hour:02}:{minute:02}:{second:02}");
        }
        write!(out, "0x")?;
        self.0.iter().try_for_each(|byte| write!(out, "{byte:02x}"))
    }
}

#[cfg(test)]
mod tests {
    use super::*;

    #[test]
    fn text_both_ways() {
        for text in ["2000-02-29T12:34:56", "1980-01-01T00:00:00", "9999-12-31T23:59:59", "0x00000000000100ff"] {
            assert_eq!(Stamp::parse(text).expect("a stamp").to_string(), text);
        }
        assert_eq!(Stamp::parse("0x0038220C1D02D007"), Stamp::parse("2000-02-29T12:34:56"));
        assert_eq!(Stamp::parse("2001-02-30T00:00:00").expect("of the form").to_string(), "0x000000001e02d107");
    }

    #[test]
    fn other_forms() {
        let bad = ["", "0x", "0x0", "0x0038220c1d02d0070", "0xgg38220c1d02d007", "0x+038220c1d02d007", "now"];
        let dates = [
            "2000-2-29T12:34:56",
            "2000-02-29 12:34:56",
            "2000-02-29T12:34",
            "2000-02-29T12:34:56Z",
            "+200-02-29T12:34:56",
        ];
        assert!(bad.iter().chain(&dates).all(|text| Stamp::parse(text).is_none()));
    }

    /// Validity is the independent reader's, on every byte near its bounds.
    #[test]
    fn validity() {
        let good = Stamp::parse("2000-02-29T12:34:56").expect("a stamp");
        for place in 0..8 {
            for value in 0..=255 {
                let mut stamp = good;
                stamp.0[place] = value;
                assert_eq!(stamp.is_valid(), reader::time::valid(&stamp.0), "{stamp:?}");
            }
        }
        for year in 1975..2405 {
            for month in 0..14 {
                for day in 27..33 {
                    let stamp = Stamp::of(year, month, day, [0, 0, 0]);
                    assert_eq!(stamp.is_valid(), reader::time::valid(&stamp.0), "{stamp:?}");
                }
            }
        }
    }

    #[test]
    fn dates_of_seconds() {
        for (seconds, text) in [
            (315_532_800, "1980-01-01T00:00:00"),
            (951_827_696, "2000-02-29T12:34:56"),
            (1_000_000_000, "2001-09-09T01:46:40"),
            (4_107_542_399, "2100-02-28T23:59:59"),
            (4_107_542_400, "2100-03-01T00:00:00"),
        ] {
            assert_eq!(Stamp::of_seconds(seconds).to_string(), text);
        }
        assert!(Stamp::now().is_valid());
    }
}
