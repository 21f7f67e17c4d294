//! The command that copies files out to the host: get.

use std::ffi::OsStr;
use std::fs::{DirBuilder, File, FileTimes};
use std::io::{self, Read, Seek, Write};
use std::os::unix::ffi::OsStrExt;
use std::path::{Path, PathBuf};
use std::time::SystemTime;

use ps2card::image_file::{absent, sync_folder, Growing, Notice};
use ps2card::{Entry, Kind};

use super::image::Image;
use super::{look, print, say, Command};
use crate::arguments::{Call, Opt, Syntax};
use crate::failure::Failure;
use crate::{host_time, output};

pub const GET: Command = Command {
    syntax: Syntax {
        name: "get",
        alias: None,
        words: 3..=3,
        options: &[Opt::Plain],
        help: include_str!("../help/get.txt"),
    },
    run: |call| look(call, |image| get(image, call)),
};

/// One file or directory to make on the host, below the copy's own name; what is a file has bytes.
struct Copy {
    below: PathBuf,
    bytes: Option<Vec<u8>>,
    modified: Option<SystemTime>,
}

fn get(image: &Image, call: &Call) -> Result<(), Failure> {
    let (path, to) = (call.bytes(1), call.file(2));
    let entry = image.find(path)?;
    if to == Path::new("-") {
        return print(&image.bytes(path, 0, entry.length as usize)?);
    }
    let failed = |error| Failure::host("write", to, error);
    absent(to).map_err(failed)?;
    // All is read before anything is written.
    let copies = match entry.kind() {
        Kind::File => vec![copy(image, path, PathBuf::new(), &entry)?],
        Kind::Directory => tree(image, path, &entry)?,
    };
    write(&copies, to).map_err(failed)?;
    if let Err(error) = sync_folder(to) {
        say(to, Notice::Unsynced(error));
    }
    Ok(())
}

fn copy(image: &Image, path: &[u8], below: PathBuf, entry: &Entry) -> Result<Copy, Failure> {
    let bytes = match entry.kind() {
        Kind::File => Some(image.bytes(path, 0, entry.length as usize)?),
        Kind::Directory => None,
    };
    Ok(Copy { below, bytes, modified: host_time::moment(&entry.modified) })
}

/// A directory and all below it, in tree order.
fn tree(image: &Image, path: &[u8], entry: &Entry) -> Result<Vec<Copy>, Failure> {
    let start = if path == b"/" { b"/".to_vec() } else { [path, b"/"].concat() };
    let tree = image.tree()?;
    let below: Vec<_> = tree.iter().filter(|line| line.path.starts_with(&start)).collect();
    let mut copies = vec![copy(image, path, PathBuf::new(), entry)?];
    for line in output::steps(below, "entries read") {
        let entry = image.find(&line.path)?;
        copies.push(copy(image, &line.path, PathBuf::from(OsStr::from_bytes(&line.path[start.len()..])), &entry)?);
    }
    Ok(copies)
}

/// Makes all of them under a hidden name, sees that they last, and then gives the first its own.
fn write(copies: &[Copy], to: &Path) -> io::Result<()> {
    let (whole, inside) = copies.split_first().expect("a copy has a file or a directory");
    let growing = match whole.bytes {
        Some(_) => Growing::file(to, 0o666)?,
        None => Growing::directory(to)?,
    };
    if let Some(bytes) = &whole.bytes {
        fill(growing.handle(), bytes, whole)?;
    }
    for copy in output::steps(inside, "entries written") {
        let at = growing.at().join(&copy.below);
        match &copy.bytes {
            Some(bytes) => fill(&File::options().read(true).write(true).create_new(true).open(&at)?, bytes, copy)?,
            None => DirBuilder::new().create(&at)?,
        }
    }
    // A directory's time would move with each file that is made in it.
    let directories: Vec<_> = inside.iter().rev().filter(|copy| copy.bytes.is_none()).collect();
    for copy in output::steps(directories, "directories dated") {
        keep(&File::open(growing.at().join(&copy.below))?, copy)?;
    }
    if whole.bytes.is_none() {
        keep(growing.handle(), whole)?;
    }
    growing.place_new(to)
}

/// Writes a file, and reads it back.
fn fill(mut file: &File, bytes: &[u8], copy: &Copy) -> io::Result<()> {
    file.write_all(bytes)?;
    keep(file, copy)?;
    let mut read_back = Vec::new();
    file.rewind()?;
    file.read_to_end(&mut read_back)?;
    match read_back == bytes {
        true => Ok(()),
        false => Err(io::Error::other("what was written reads back differently")),
    }
}

/// Gives it the card's time, and sees that it lasts.
fn keep(file: &File, copy: &Copy) -> io::Result<()> {
    if let Some(modified) = copy.modified {
        file.set_times(FileTimes::new().set_modified(modified))?;
    }
    file.sync_all()
}
