//! Times as a listing tells them, in the zone that was asked for.

use std::fmt;

use crate::stamp::date_parts;

/// A time from 1980 to 9999 in the zone that a listing was asked for: as its text has it, `YYYY-MM-DD hh:mm:ss`. It is
/// no [`Stamp`](crate::Stamp), which a card holds and which is Japan's time. Of one listing, the later one is greater.
///
/// ```
/// use ps2card::{Card, Format, LocalTime, Stamp};
///
/// let mut card = Card::fresh(Format::Raw, 56, &Stamp::now())?;
/// card.create(b"/A", &Stamp::parse("2000-03-01T08:59:59").unwrap(), b"")?;
/// // UTC is nine hours behind Japan.
/// let time = card.tree_at(-540)?[0].modified.expect("a valid time");
/// assert_eq!(time, LocalTime { year: 2000, month: 2, day: 29, hour: 23, minute: 59, second: 59 });
/// assert_eq!(time.to_string(), "2000-02-29 23:59:59");
/// # Ok::<(), ps2card::Refusal>(())
/// ```
#[derive(Clone, Copy, Debug, PartialEq, Eq, PartialOrd, Ord, Hash)]
pub struct LocalTime {
    /// From 1980 to 9999.
    pub year: u16,
    /// From 1 to 12.
    pub month: u8,
    /// From 1 on.
    pub day: u8,
    /// From 0 to 23.
    pub hour: u8,
    /// From 0 to 59.
    pub minute: u8,
    /// From 0 to 59.
    pub second: u8,
}

impl LocalTime {
    /// `YYYY-MM-DD hh:mm:ss`, as the listing has it. Nothing for text of another form.
    pub(crate) fn parse(text: &[u8]) -> Option<LocalTime> {
        let (year, [month, day, hour, minute, second]) = date_parts(text, b' ')?;
        Some(LocalTime { year, month, day, hour, minute, second })
    }
}

impl fmt::Display for LocalTime {
    fn fmt(&self, out: &mut fmt::Formatter<'_>) -> fmt::Result {
        let LocalTime { year, month, day, hour, minute, second } = self;
        write!(out, "{year:04}-{month:02}-{day:02} {hour:02}:{minute:02}:{second:02}")
    }
}

#[cfg(test)]
mod tests {
    use super::*;

    #[test]
    fn text_both_ways() {
        for text in ["2000-02-29 12:34:56", "1980-01-01 00:00:00", "9999-12-31 23:59:59"] {
            assert_eq!(LocalTime::parse(text.as_bytes()).expect("a time").to_string(), text);
        }
        let bad = ["", "unknown", "2000-02-29T12:34:56", "2000-02-29 12:34:5", "2000-02-29 12:34:5x", "2000-02-29"];
        assert!(bad.iter().all(|text| LocalTime::parse(text.as_bytes()).is_none()));
    }

    #[test]
    fn later_is_greater() {
        let times = ["1980-12-31 23:59:59", "1981-01-01 00:00:00", "1981-01-01 00:01:00", "1981-01-01 00:01:01"];
        let times = times.map(|text| LocalTime::parse(text.as_bytes()).expect("a time"));
        assert!(times.is_sorted() && times[0] < times[1] && times[2] < times[3]);
    }
}
