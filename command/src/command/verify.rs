//! The command that reads every file of cards and prints its sum: verify.

use std::os::unix::ffi::OsStrExt;
use std::path::Path;

use ps2card::{Format, Kind, Refusal};

use super::check::each;
use super::image::Image;
use super::{print, Command};
use crate::arguments::{Opt, Syntax};
use crate::failure::{Failure, REFUSED};
use crate::{output, sha256};

pub const VERIFY: Command = Command {
    syntax: Syntax {
        name: "verify",
        alias: None,
        words: 1..=usize::MAX,
        options: &[Opt::Plain],
        help: include_str!("../help/verify.txt"),
    },
    run: |call| each(call, |format, name| verify(format, name, call.has(1))),
};

fn verify(format: Format, name: &Path, one_of_several: bool) -> Result<(), Failure> {
    let image = Image::load(format, name)?;
    let tree = image.tree()?;
    let files: Vec<_> = tree.iter().filter(|line| line.kind == Kind::File).collect();
    let mut whole = true;
    for line in output::steps(files, "files") {
        let bytes = match file(&image, &line.path, line.length as usize) {
            Ok(bytes) => bytes,
            Err(refusals) => {
                refusals.into_iter().for_each(|refusal| {
                    image.refused_at(refusal, &line.path).tell();
                });
                whole = false;
                continue;
            }
        };
        // A path as it stands below the directory that `get IMAGE / DIR` makes; of several images, below the image.
        let path = match one_of_several {
            true => [name.as_os_str().as_bytes(), &line.path].concat(),
            false => line.path[1..].to_vec(),
        };
        print(&sum_line(&bytes, &path))?;
    }
    image.tell_mended();
    match whole {
        true => Ok(()),
        false => Err(Failure::Told(REFUSED)),
    }
}

/// A line as sha256sum prints it: where the name has a backslash or a line's end, these are escaped, and the line says
/// so by a backslash in front.
fn sum_line(bytes: &[u8], path: &[u8]) -> Vec<u8> {
    let mut name = Vec::new();
    for &byte in path {
        match byte {
            b'\\' => name.extend(b"\\\\"),
            b'\n' => name.extend(b"\\n"),
            b'\r' => name.extend(b"\\r"),
            byte => name.push(byte),
        }
    }
    let mark: &[u8] = if name.len() > path.len() { b"\\" } else { b"" };
    [mark, sha256::hex(bytes).as_bytes(), b"  ", &name, b"\n"].concat()
}

/// All bytes of a file on a checked card; where pages of it are unreadable, a refusal for each of them.
pub fn file(image: &Image, path: &[u8], length: usize) -> Result<Vec<u8>, Vec<Refusal>> {
    match image.read(path, 0, length) {
        Ok(bytes) => Ok(bytes),
        Err(Refusal::UnreadablePage(_)) => Err(unreadable(image, path, length)),
        Err(refusal) => Err(vec![refusal]),
    }
}

/// Every unreadable page of a file, in its order. A read tells the first in its range: ranges that grow twofold, and
/// then halve, find each with few reads. They are of whole pages, and the next begins where one that was read ends, so
/// that every readable page is read once.
fn unreadable(image: &Image, path: &[u8], length: usize) -> Vec<Refusal> {
    const PAGE: usize = 512;
    let pages = length.div_ceil(PAGE);
    let read = |from: usize, to: usize| image.read(path, from * PAGE, (to - from) * PAGE);
    let (mut refusals, mut from, mut step) = (Vec::new(), 0, 1);
    let steps = output::Steps::ahead(pages, "pages");
    while from < pages {
        steps.done(from);
        let to = pages.min(from + step);
        match read(from, to) {
            Ok(_) => (from, step) = (to, 2 * step),
            Err(refusal) if to == from + 1 => {
                refusals.push(refusal);
                (from, step) = (to, 1);
            }
            Err(_) => step = (to - from) / 2,
        }
    }
    refusals
}
