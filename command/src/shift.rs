//! The shift of a listing's times, as people say it: minutes ahead of Japan, or a zone.

use std::ffi::OsStr;

/// Minutes that Japan is ahead of UTC, all year.
const JAPAN: i32 = 9 * 60;

/// A decimal number with or without a sign. What is too large for a number here is too large for the library as well,
/// which then says so. Nothing for other text.
pub fn of_minutes(text: &OsStr) -> Option<i32> {
    let text = text.to_str()?;
    let digits = text.strip_prefix(['+', '-']).unwrap_or(text);
    let is_number = !digits.is_empty() && digits.bytes().all(|byte| byte.is_ascii_digit());
    let beyond = if text.starts_with('-') { i32::MIN } else { i32::MAX };
    is_number.then(|| text.parse().unwrap_or(beyond))
}

/// `+hh:mm` or `-hh:mm` from UTC, which is `+09:00` in Japan. Nothing for other text.
pub fn of_zone(text: &OsStr) -> Option<i32> {
    let &[sign, h1, h2, b':', m1, m2] = text.as_encoded_bytes() else { return None };
    let (hours, minutes) = (two_digits(h1, h2)?, two_digits(m1, m2)?);
    let ahead = match sign {
        b'+' => 60 * hours + minutes,
        b'-' => -(60 * hours + minutes),
        _ => return None,
    };
    (hours <= 23 && minutes <= 59).then_some(ahead - JAPAN)
}

fn two_digits(first: u8, second: u8) -> Option<i32> {
    let digit = |byte: u8| byte.is_ascii_digit().then(|| i32::from(byte - b'0'));
    Some(10 * digit(first)? + digit(second)?)
}

#[cfg(test)]
mod tests {
    use super::*;

    #[test]
    fn minutes() {
        for (text, minutes) in [
            ("0", 0),
            ("-0", 0),
            ("+60", 60),
            ("300", 300),
            ("-1260", -1260),
            ("007", 7),
            ("-2147483648", i32::MIN),
            ("2147483648", i32::MAX),
            ("-99999999999999999999", i32::MIN),
            ("+99999999999999999999", i32::MAX),
        ] {
            assert_eq!(of_minutes(OsStr::new(text)), Some(minutes), "{text}");
        }
        for text in ["", "+", "-", "--1", "+-1", "1.5", "1 ", " 1", "1h", "99999999999999999999x", "1_0", "١", "−60"]
        {
            assert_eq!(of_minutes(OsStr::new(text)), None, "{text}");
        }
    }

    #[test]
    fn zones() {
        for (text, minutes) in [
            ("+09:00", 0),
            ("+00:00", -540),
            ("-00:00", -540),
            ("+05:30", -210),
            ("-03:30", -750),
            ("+12:45", 225),
            ("-12:00", -1260),
            ("+14:00", 300),
            ("+23:59", 899),
            ("-23:59", -1979),
        ] {
            assert_eq!(of_zone(OsStr::new(text)), Some(minutes), "{text}");
        }
        let bad =
            ["", "+", "Z", "UTC", "09:00", "+9:00", "+0900", "+09", "+09:0", "+09:000", "+24:00", "+09:60", "++9:00"];
        for text in
            bad.into_iter().chain(["+ 9:00", "+09.00", "+09:-1", " +09:00", "+09:00 ", "*09:00", "−09:00", "+0٩:00"])
        {
            assert_eq!(of_zone(OsStr::new(text)), None, "{text}");
        }
    }
}
