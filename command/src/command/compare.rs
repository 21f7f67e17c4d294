//! The command that compares two cards path by path: compare.

use std::collections::{BTreeMap, BTreeSet};
use std::fmt::Display;

use ps2card::{Format, Kind, Line};

use super::image::Image;
use super::verify::file;
use super::{print, Command};
use crate::arguments::{Call, Opt, Syntax};
use crate::failure::{Failure, REFUSED};
use crate::output;

pub const COMPARE: Command = Command {
    syntax: Syntax {
        name: "compare",
        alias: None,
        words: 2..=2,
        options: &[Opt::BytesOnly, Opt::Plain, Opt::PlainA, Opt::PlainB],
        help: include_str!("../help/compare.txt"),
    },
    run: compare,
};

/// Two cards, and whether anything differs so far.
struct Pair<'a> {
    images: [Image<'a>; 2],
    differs: bool,
}

fn compare(call: &Call) -> Result<(), Failure> {
    let names = call.images()?;
    // One option is for both; else each image has its own.
    let load = |place: usize, own: Opt, option: &'static str| match call.asked(Opt::Plain) {
        true => Image::load(Format::Plain, names[place]),
        false => Image::load_by(option, call.format_by(own), names[place]),
    };
    let images = [load(0, Opt::PlainA, "--plain-a")?, load(1, Opt::PlainB, "--plain-b")?];
    let trees = [lines(&images[0])?, lines(&images[1])?];
    let paths: BTreeSet<&Vec<u8>> = trees.iter().flat_map(BTreeMap::keys).collect();
    let mut pair = Pair { images, differs: false };
    for path in output::steps(paths, "paths") {
        match [trees[0].get(path), trees[1].get(path)] {
            [Some(one), Some(other)] => pair.both(one, other, call.asked(Opt::BytesOnly))?,
            [one, _] => pair.tell(if one.is_some() { "missing" } else { "extra" }, path)?,
        }
    }
    if !pair.differs {
        let files = trees[0].values().filter(|line| line.kind == Kind::File).count();
        let what = if call.asked(Opt::BytesOnly) { "the same files and bytes" } else { "the same" };
        print(format!("{what}: {files} files, {} directories\n", trees[0].len() - files).as_bytes())?;
    }
    pair.images.iter().for_each(Image::tell_mended);
    match pair.differs {
        true => Err(Failure::Told(REFUSED)),
        false => Ok(()),
    }
}

/// A card's tree by path, the root too.
fn lines(image: &Image) -> Result<BTreeMap<Vec<u8>, Line>, Failure> {
    let root = Line { kind: Kind::Directory, length: 0, path: b"/".to_vec(), modified: None };
    Ok(image.tree()?.into_iter().chain([root]).map(|line| (line.path.clone(), line)).collect())
}

impl Pair<'_> {
    fn tell(&mut self, what: &str, path: &[u8]) -> Result<(), Failure> {
        self.differs = true;
        print(&[what.as_bytes(), b" ", path, b"\n"].concat())
    }

    /// Tells two values where they differ.
    fn values<T: PartialEq>(
        &mut self,
        name: &str,
        values: [T; 2],
        show: impl Fn(&T) -> String,
        path: &[u8],
    ) -> Result<(), Failure> {
        match values[0] == values[1] {
            true => Ok(()),
            false => self.tell(&format!("{name} {} {}", show(&values[0]), show(&values[1])), path),
        }
    }

    /// A path that both cards have.
    fn both(&mut self, one: &Line, other: &Line, bytes_only: bool) -> Result<(), Failure> {
        let path = &one.path;
        self.values("kind", [one.kind, other.kind], |kind| kind_word(*kind).to_string(), path)?;
        if !bytes_only {
            let [a, b] = [self.images[0].find(path)?, self.images[1].find(path)?];
            self.values("mode", [a.mode, b.mode], |mode| format!("0x{mode:04x}"), path)?;
            self.values("attribute", [a.attribute, b.attribute], shown, path)?;
            self.values("created", [a.created, b.created], shown, path)?;
            self.values("modified", [a.modified, b.modified], shown, path)?;
        }
        match one.kind == Kind::File && other.kind == Kind::File {
            true => self.files([one, other]),
            false => Ok(()),
        }
    }

    /// Two files: their bytes, all of which must be readable to be the same.
    fn files(&mut self, lines: [&Line; 2]) -> Result<(), Failure> {
        let path = &lines[0].path;
        let read = |place: usize| file(&self.images[place], path, lines[place].length as usize);
        let files = [read(0), read(1)];
        for (place, letter) in ["A", "B"].into_iter().enumerate() {
            for refusal in files[place].as_ref().err().into_iter().flatten() {
                match refusal.page() {
                    Some(page) => self.tell(&format!("unreadable {letter} {page}"), path)?,
                    None => return Err(self.images[place].refused_at(*refusal, path)),
                }
            }
        }
        match files {
            [Ok(one), Ok(other)] if one != other => {
                let at = one.iter().zip(&other).take_while(|(a, b)| a == b).count();
                self.tell(&format!("bytes {at}"), path)
            }
            _ => Ok(()),
        }
    }
}

fn shown<T: Display>(value: &T) -> String {
    value.to_string()
}

fn kind_word(kind: Kind) -> &'static str {
    match kind {
        Kind::File => "file",
        Kind::Directory => "directory",
    }
}
