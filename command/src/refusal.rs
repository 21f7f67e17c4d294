//! Why a call was refused: document 01's numbers, and words for the counter of a shop.

use std::fmt;

/// A refusal. The image and every output are as they were before the call.
///
/// Of several that apply, 17 is told before all others, then the first of 1 to 7 that the check meets, then the first in
/// this order: 8, 14, 9, 10, 11, 13, 15, 16, 12. A conversion tells 1, 23, 2 in this order.
///
/// ```
/// use ps2card::{Card, Refusal};
///
/// let refusal = Card::raw(&[0; 100][..]).check().unwrap_err();
/// assert_eq!((refusal, refusal.number(), refusal.page()), (Refusal::BadLength, 1, None));
/// assert!(refusal.to_string().starts_with("refused 1: "));
/// ```
#[derive(Clone, Copy, Debug, PartialEq, Eq, Hash)]
#[non_exhaustive]
pub enum Refusal {
    /// 1: the image's length is that of no card in its format.
    BadLength,
    /// 2: a needed page cannot be read; its index in the image.
    UnreadablePage(usize),
    /// 3: the format text differs.
    BadText,
    /// 4: another rule of the superblock is broken, or a listed bad block is block 0 or beyond the card.
    BadSuperblock,
    /// 5: the name of the indirect or a table cluster breaks its rule, or the cluster lies in a listed bad block.
    BadTableName,
    /// 6: a chain isn't sound.
    BadChain,
    /// 7: an entry breaks its rule.
    BadEntry,
    /// 8: the path is malformed, or names what this change cannot touch.
    BadPath,
    /// 9: a name is absent.
    Absent,
    /// 10: a file stands where a directory is needed, or the reverse.
    WrongKind,
    /// 11: the path to create exists.
    Exists,
    /// 12: fewer free clusters than needed; those held back are not free.
    NoRoom,
    /// 13: the directory to remove has a live entry.
    NotEmpty,
    /// 14: the time is invalid.
    BadTime,
    /// 15: the read's offset lies beyond the file's length.
    BadOffset,
    /// 16: the file or directory itself, or the directory directly around it, is locked, as
    /// [`Entry::is_locked`](crate::Entry::is_locked) says.
    Locked,
    /// 17: the number of minutes is none from -1,260 to 300.
    BadShift,
    /// 23: the output of a conversion isn't exactly as long as needed.
    WrongOutput,
    /// A number that this wrapper has no word for, as a newer library may tell it.
    Unknown(u32),
}

impl Refusal {
    /// The refusal that a call told: its number, and the page it wrote for number 2. Nothing for 0.
    pub(crate) fn told(number: u32, page: usize) -> Option<Refusal> {
        Some(match number {
            0 => return None,
            1 => Refusal::BadLength,
            2 => Refusal::UnreadablePage(page),
            3 => Refusal::BadText,
            4 => Refusal::BadSuperblock,
            5 => Refusal::BadTableName,
            6 => Refusal::BadChain,
            7 => Refusal::BadEntry,
            8 => Refusal::BadPath,
            9 => Refusal::Absent,
            10 => Refusal::WrongKind,
            11 => Refusal::Exists,
            12 => Refusal::NoRoom,
            13 => Refusal::NotEmpty,
            14 => Refusal::BadTime,
            15 => Refusal::BadOffset,
            16 => Refusal::Locked,
            17 => Refusal::BadShift,
            23 => Refusal::WrongOutput,
            other => Refusal::Unknown(other),
        })
    }

    /// The refusal that a listing is, as its one line says: `refused N`, or `refused 2 PAGE`. Nothing for a card's.
    pub(crate) fn listed(text: &[u8]) -> Option<Refusal> {
        let line = text.strip_prefix(b"refused ")?.strip_suffix(b"\n")?;
        let mut numbers = std::str::from_utf8(line).ok()?.split(' ').map(str::parse);
        let (number, page) = (numbers.next()?.ok()?, numbers.next());
        Refusal::told(u32::try_from(number).ok()?, page.and_then(Result::ok).unwrap_or(0))
    }

    /// Document 01's number.
    pub fn number(self) -> u32 {
        match self {
            Refusal::BadLength => 1,
            Refusal::UnreadablePage(_) => 2,
            Refusal::BadText => 3,
            Refusal::BadSuperblock => 4,
            Refusal::BadTableName => 5,
            Refusal::BadChain => 6,
            Refusal::BadEntry => 7,
            Refusal::BadPath => 8,
            Refusal::Absent => 9,
            Refusal::WrongKind => 10,
            Refusal::Exists => 11,
            Refusal::NoRoom => 12,
            Refusal::NotEmpty => 13,
            Refusal::BadTime => 14,
            Refusal::BadOffset => 15,
            Refusal::Locked => 16,
            Refusal::BadShift => 17,
            Refusal::WrongOutput => 23,
            Refusal::Unknown(number) => number,
        }
    }

    /// The unreadable page, for number 2.
    pub fn page(self) -> Option<usize> {
        match self {
            Refusal::UnreadablePage(page) => Some(page),
            _ => None,
        }
    }

    /// The reason in words.
    pub fn words(self) -> &'static str {
        match self {
            Refusal::BadLength => {
                "this is not a card image of the format asked for: a raw one has 1,056 bytes for each of 32 to 65,536 clusters, in steps of 8, a plain one, without spare bytes, 1,024"
            }
            Refusal::UnreadablePage(_) => "this page of the card is damaged beyond correction and is needed",
            Refusal::BadText => "the card is not formatted as a PlayStation 2 memory card",
            Refusal::BadSuperblock => "the card's description of itself (its first page, with its list of bad blocks) is wrong",
            Refusal::BadTableName => "the card's list of allocation table clusters is wrong, or this list or one of them lies in a block that the card says is bad",
            Refusal::BadChain => "the clusters of a file or directory do not hang together",
            Refusal::BadEntry => "a directory entry on the card is wrong",
            Refusal::BadPath => "this path cannot be used: a path is / or up to eight names each after /, such as /SAVE/icon.sys, a name up to 31 plain characters without * and ?; / itself cannot be changed, and a directory has at most seven names",
            Refusal::Absent => "nothing of that name is on the card",
            Refusal::WrongKind => "a file stands where a directory is needed, or a directory where a file is",
            Refusal::Exists => "something of that name is already on the card",
            Refusal::NoRoom => "not enough room is left on the card",
            Refusal::NotEmpty => "the directory is not empty",
            Refusal::BadTime => "this is no valid time from 1980 to 9999",
            Refusal::BadOffset => "the offset lies beyond the end of the file",
            Refusal::Locked => "it is locked: the write bit (mode 0x0002) of the file or directory itself, or of the directory directly around it, is clear",
            Refusal::BadShift => "this shift is none from 1,260 minutes behind Japan to 300 minutes ahead (zones -12:00 to +14:00)",
            Refusal::WrongOutput => "the buffer for the converted card isn't exactly as long as needed",
            Refusal::Unknown(_) => "the library gives a reason that this program does not know",
        }
    }
}

impl fmt::Display for Refusal {
    /// `refused N`, or `refused 2 PAGE`, then a colon and the words.
    fn fmt(&self, out: &mut fmt::Formatter<'_>) -> fmt::Result {
        match self.page() {
            Some(page) => write!(out, "refused {} {page}: {}", self.number(), self.words()),
            None => write!(out, "refused {}: {}", self.number(), self.words()),
        }
    }
}

impl std::error::Error for Refusal {}

#[cfg(test)]
mod tests {
    use super::*;

    const NUMBERS: [u32; 18] = [1, 2, 3, 4, 5, 6, 7, 8, 9, 10, 11, 12, 13, 14, 15, 16, 17, 23];

    #[test]
    fn numbers_come_back() {
        for number in NUMBERS {
            let refusal = Refusal::told(number, 77).expect("a number of the library");
            assert_eq!(refusal.number(), number);
            assert_eq!(refusal.page(), (number == 2).then_some(77));
            assert!(!matches!(refusal, Refusal::Unknown(_)));
        }
        assert_eq!(Refusal::told(0, 77), None);
    }

    /// A number of another library is kept and told, and no panic.
    #[test]
    fn unknown_numbers() {
        for number in [18, 22, 24, u32::MAX] {
            let refusal = Refusal::told(number, 77).expect("a refusal");
            assert_eq!((refusal, refusal.number(), refusal.page()), (Refusal::Unknown(number), number, None));
            assert!(refusal.to_string().starts_with(&format!("refused {number}: ")), "{refusal}");
        }
    }

    #[test]
    fn lines_of_listings() {
        for number in NUMBERS {
            let line = if number == 2 { "refused 2 77\n".to_string() } else { format!("refused {number}\n") };
            assert_eq!(Refusal::listed(line.as_bytes()), Refusal::told(number, 77), "{line}");
        }
        assert_eq!(Refusal::listed(b"refused 99\n"), Some(Refusal::Unknown(99)));
        assert!([&b"card 56\nfree 29\n"[..], b"", b"refused"].iter().all(|text| Refusal::listed(text).is_none()));
    }

    #[test]
    fn one_line_each() {
        for number in NUMBERS {
            let line = Refusal::told(number, 5).expect("a number").to_string();
            let start = if number == 2 { "refused 2 5: ".to_string() } else { format!("refused {number}: ") };
            assert!(line.starts_with(&start) && !line.contains('\n') && line.len() > start.len(), "{line}");
        }
    }
}
