//! The listing taken apart: a card's tree in one call.

use std::str::FromStr;

use crate::{Card, Kind, LocalTime, Mended, Refusal};

/// An entry of the tree, as a line of the listing has it.
#[derive(Clone, Debug, PartialEq, Eq)]
pub struct Line {
    /// What it is.
    pub kind: Kind,
    /// A file's bytes, or a directory's entries, the first two and dead ones too.
    pub length: u32,
    /// Its path on the card.
    pub path: Vec<u8>,
    /// When it was last changed, in the zone that the listing was asked for; nothing where it says `unknown`: the entry
    /// holds no valid time, or the zone takes it out of the years 1980 to 9999.
    pub modified: Option<LocalTime>,
}

impl Line {
    /// The directory that the entry stands in.
    pub fn parent(&self) -> &[u8] {
        let end = self.path.iter().rposition(|&byte| byte == b'/').unwrap_or(0);
        if end == 0 {
            b"/"
        } else {
            &self.path[..end]
        }
    }
}

impl<B: AsRef<[u8]>> Card<B> {
    /// Every entry in tree order: slot order, a directory before its inside; times are Japan's. One check of the card.
    ///
    /// ```
    /// use ps2card::{Card, Format, Kind, Stamp};
    ///
    /// let mut card = Card::fresh(Format::Raw, 56, &Stamp::now())?;
    /// card.make_dir(b"/SAVE", &Stamp::now())?;
    /// card.create(b"/SAVE/A", &Stamp::now(), b"bytes")?;
    /// let tree = card.tree()?;
    /// assert_eq!((tree[0].kind, &tree[0].path[..]), (Kind::Directory, &b"/SAVE"[..]));
    /// assert_eq!((tree[1].kind, tree[1].length, tree[1].parent()), (Kind::File, 5, &b"/SAVE"[..]));
    /// # Ok::<(), ps2card::Refusal>(())
    /// ```
    pub fn tree(&self) -> Result<Vec<Line>, Refusal> {
        self.tree_at(0)
    }

    /// [`Card::tree`] with every time shifted by so many minutes, as [`Card::list_at`] does.
    pub fn tree_at(&self, minutes: i32) -> Result<Vec<Line>, Refusal> {
        self.tree_mended_at(minutes).map(|listed| listed.answer)
    }

    /// [`Card::tree`], with the chunks that were mended, as the listing has them.
    ///
    /// ```
    /// use ps2card::{Card, Format, Stamp};
    ///
    /// let mut image = Card::fresh(Format::Raw, 56, &Stamp::now())?.into_image();
    /// image[0] ^= 1; // One bit in page 0.
    /// assert_eq!(Card::raw(image).tree_mended()?.chunks, 1);
    /// # Ok::<(), ps2card::Refusal>(())
    /// ```
    pub fn tree_mended(&self) -> Result<Mended<Vec<Line>>, Refusal> {
        self.tree_mended_at(0)
    }

    /// [`Card::tree_at`], with the chunks that were mended.
    pub fn tree_mended_at(&self, minutes: i32) -> Result<Mended<Vec<Line>>, Refusal> {
        let text = self.list_at(minutes)?;
        let lines = || text.split(|&byte| byte == b'\n');
        let chunks = lines().find_map(|line| number(line.strip_prefix(b"mended ")?)).unwrap_or(0);
        Ok(Mended { answer: lines().filter_map(parse).collect(), chunks })
    }
}

fn number<T: FromStr>(digits: &[u8]) -> Option<T> {
    std::str::from_utf8(digits).ok()?.parse().ok()
}

/// A line `f LENGTH PATH TIME` or `d LENGTH PATH TIME`; nothing for the counts.
fn parse(line: &[u8]) -> Option<Line> {
    let (kind, rest) = match line.strip_prefix(b"f ") {
        Some(rest) => (Kind::File, rest),
        None => (Kind::Directory, line.strip_prefix(b"d ")?),
    };
    let blank = rest.iter().position(|&byte| byte == b' ')?;
    let (path, modified) = parse_end(&rest[blank + 1..])?;
    Some(Line { kind, length: number(&rest[..blank])?, path: path.to_vec(), modified })
}

/// A path and the time behind it. A name may have blanks and end in anything that looks like a time: only the line's end
/// tells where the path ends.
fn parse_end(rest: &[u8]) -> Option<(&[u8], Option<LocalTime>)> {
    if let Some(path) = rest.strip_suffix(b" unknown") {
        return Some((path, None));
    }
    let (path, end) = rest.split_at(rest.len().checked_sub(" YYYY-MM-DD hh:mm:ss".len())?);
    Some((path, Some(LocalTime::parse(end.strip_prefix(b" ")?)?)))
}

#[cfg(test)]
mod tests {
    use super::*;

    #[test]
    fn lines() {
        let line = parse(b"f 1500 /SAVE/A B 2000-02-29 12:34:56").expect("a file");
        assert_eq!((line.kind, line.length, line.path.as_slice()), (Kind::File, 1500, &b"/SAVE/A B"[..]));
        let time = LocalTime { year: 2000, month: 2, day: 29, hour: 12, minute: 34, second: 56 };
        assert_eq!((line.parent(), line.modified), (&b"/SAVE"[..], Some(time)));
        let line = parse(b"d 3 /SAVE unknown").expect("a directory");
        assert_eq!((line.kind, line.length, line.path.as_slice()), (Kind::Directory, 3, &b"/SAVE"[..]));
        assert_eq!((line.parent(), line.modified), (&b"/"[..], None));
        assert!([&b"card 56"[..], b"free 24", b"mended 0", b""].iter().all(|line| parse(line).is_none()));
    }

    /// Whatever a name is or ends in, behind the path stands one blank and the time.
    #[test]
    fn names_like_times() {
        let names =
            ["A", " ", "A ", " A", "A  B", "unknown", " unknown", "A unknown", "A unknown ", "A unknown unknown"];
        let dated = ["2000-02-29 12:34:56", "A 1999-12-31 23:59:59", "1999-12-31 23:59:59 ", "f 1 ", "23:59:59"];
        for name in names.into_iter().chain(dated) {
            for (text, known) in [("unknown", false), ("2024-12-31 00:00:01", true)] {
                let path = format!("/SAVE 1/{name}");
                let line = parse(format!("f 0 {path} {text}").as_bytes()).expect("a file");
                assert_eq!((line.length, line.path.as_slice()), (0, path.as_bytes()));
                assert_eq!(line.modified.map(|time| time.to_string()), known.then(|| text.to_string()));
            }
        }
    }

    #[test]
    fn no_lines() {
        let cut = ["f 0 /A", "f 0 /A ", "f 0 /A known", "f 0 /A 2000-02-29", "f 0 /A2000-02-29 12:34:56", "f 0", "d "];
        assert!(cut.iter().all(|line| parse(line.as_bytes()).is_none()));
    }
}
