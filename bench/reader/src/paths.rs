//! Paths: `/`, or one to eight names each after `/`.

use crate::names;
use crate::tree::DEEPEST;

/// Most names in a path: a file may stand in a directory that lies deepest.
pub const MOST_NAMES: usize = DEEPEST + 1;
/// Most bytes in a path: so many names of 31 bytes, each after its `/`.
pub const MOST_BYTES: usize = MOST_NAMES * names::FIELD;

/// The names of a path, none for the root; nothing where it is malformed.
pub fn parse(path: &[u8]) -> Option<Vec<&[u8]>> {
    if path == b"/" {
        return Some(Vec::new());
    }
    let names: Vec<&[u8]> = path.strip_prefix(b"/")?.split(|&byte| byte == b'/').collect();
    (names.len() <= MOST_NAMES && names.iter().all(|name| names::allowed(name))).then_some(names)
}

/// The path of a name inside the directory at a path.
pub fn join(directory: &[u8], name: &[u8]) -> Vec<u8> {
    let mut path = directory.to_vec();
    if path != b"/" {
        path.push(b'/');
    }
    path.extend_from_slice(name);
    path
}

/// How many names a well-formed path has.
pub fn depth(path: &[u8]) -> usize {
    parse(path).expect("a well-formed path").len()
}

/// Whether the first path's names are, in order, the other's first ones. Both are well formed.
pub fn is_beginning(path: &[u8], other: &[u8]) -> bool {
    match (parse(path), parse(other)) {
        (Some(names), Some(others)) => others.starts_with(&names),
        _ => false,
    }
}

/// The directory a change at this path is in: the path without its last name.
pub fn directory_of(path: &[u8]) -> &[u8] {
    match path.iter().rposition(|&byte| byte == b'/') {
        Some(0) | None => b"/",
        Some(end) => &path[..end],
    }
}

#[cfg(test)]
mod tests {
    use super::*;

    #[test]
    fn malformed_paths() {
        let long = [b"/".as_slice(), &[b'x'; 32]].concat();
        let bad: [&[u8]; 18] = [
            b"",
            b"a",
            b"//",
            b"/a/",
            b"//a",
            b"/a//b",
            b"/.",
            b"/..",
            b"/a/.",
            b"/a*",
            b"/?",
            b"/a/b/c/d/e/f/g/h/i",
            b"/a/b/c/d/e/f/g/h/",
            b"/a\x1f",
            b"/a\x7f",
            b"/a\0",
            b"/\x80",
            &long,
        ];
        for path in bad {
            assert_eq!(parse(path), None, "{:?}", path);
        }
    }

    #[test]
    fn well_formed_paths() {
        assert_eq!(parse(b"/"), Some(vec![]));
        assert_eq!(parse(b"/a/ /c/..."), Some(vec![&b"a"[..], b" ", b"c", b"..."]));
        assert!(parse(&[b"/".as_slice(), &[b'~'; 31]].concat()).is_some());
        assert_eq!(parse(b"/a/b/c/d/e/f/g/h").map(|names| names.len()), Some(MOST_NAMES));
    }

    /// A path of all its 256 bytes, and one name more.
    #[test]
    fn longest_path() {
        let name = [b"/".as_slice(), &[b'n'; 31]].concat();
        let longest = name.repeat(8);
        assert_eq!((longest.len(), MOST_BYTES), (256, 256));
        assert_eq!(parse(&longest).map(|names| names.len()), Some(8));
        assert_eq!(parse(&[&longest[..], b"n"].concat()), None);
        assert_eq!(parse(&[&longest[..], b"/n"].concat()), None);
    }

    #[test]
    fn beginnings() {
        assert!(is_beginning(b"/", b"/a/b") && is_beginning(b"/a", b"/a") && is_beginning(b"/a", b"/a/b"));
        assert!(!is_beginning(b"/a", b"/ab") && !is_beginning(b"/a/b", b"/a"));
        assert_eq!((directory_of(b"/a"), directory_of(b"/a/b/c")), (&b"/"[..], &b"/a/b"[..]));
    }
}
