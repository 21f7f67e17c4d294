//! The command that takes a host directory or file in as one save: put.

use std::ffi::OsString;
use std::fs::{self, File};
use std::io::Read;
use std::os::unix::ffi::{OsStrExt, OsStringExt};
use std::path::Path;

use ps2card::{Card, Refusal, Stamp, MOST_CLUSTERS};

use super::{change, join, Command};
use crate::arguments::{Call, Opt, Syntax};
use crate::failure::Failure;
use crate::output;

pub const PUT: Command = Command {
    syntax: Syntax {
        name: "put",
        alias: None,
        words: 2..=2,
        options: &[Opt::Stamp, Opt::As, Opt::Plain],
        help: include_str!("../help/put.txt"),
    },
    run: put,
};

/// One creation on the card; a directory has no bytes.
struct Item {
    path: Vec<u8>,
    bytes: Option<Vec<u8>>,
}

/// What an entry takes on a card.
const ENTRY: usize = 512;

/// What was read from the host, and how much more the largest card could take beside it.
struct Gathered {
    items: Vec<Item>,
    room: usize,
    /// No card holds all of it: reading ended early.
    too_much: bool,
}

fn put(call: &Call) -> Result<(), Failure> {
    let source = call.file(1);
    if source == Path::new("-") {
        return Err(call.usage("put takes a directory or a file; create takes -".to_string()));
    }
    let name = name(call, source)?;
    let kind = fs::metadata(source).map_err(|error| Failure::host("read", source, error))?;
    let mut gathered = Gathered { items: Vec::new(), room: MOST_CLUSTERS * 1024, too_much: false };
    match kind.is_dir() {
        true => gathered.directory(source, join(b"/", &name))?,
        false => gathered.file(source, join(b"/", &name))?,
    }
    let stamp = call.stamp();
    change(call, |card| {
        for item in output::steps(&gathered.items, "entries created") {
            add(card, item, &stamp).map_err(|refusal| (refusal, item.path.clone()))?;
        }
        // What no card holds was refused above; a part of a save never goes in.
        match gathered.items.last() {
            Some(last) if gathered.too_much => Err((Refusal::NoRoom, last.path.clone())),
            _ => Ok(()),
        }
    })
}

/// The save's name: as asked, or the host's.
fn name(call: &Call, source: &Path) -> Result<Vec<u8>, Failure> {
    if let Some(name) = call.value(Opt::As) {
        return match name.as_bytes().contains(&b'/') {
            true => Err(call.usage("--as takes one name, without /".to_string())),
            false => Ok(name.as_bytes().to_vec()),
        };
    }
    if let Some(name) = source.file_name() {
        return Ok(name.as_bytes().to_vec());
    }
    // Such as `.` and `..`.
    let whole = fs::canonicalize(source).map_err(|error| Failure::host("read", source, error))?;
    let name = whole.file_name().ok_or_else(|| call.usage("the root of this machine has no name".to_string()))?;
    Ok(name.as_bytes().to_vec())
}

fn add(card: &mut Card, item: &Item, stamp: &Stamp) -> Result<(), Refusal> {
    match &item.bytes {
        Some(bytes) => card.create(&item.path, stamp, bytes),
        None => card.make_dir(&item.path, stamp),
    }
}

impl Gathered {
    /// A directory and all below it, in the order of the names' bytes.
    fn directory(&mut self, folder: &Path, path: Vec<u8>) -> Result<(), Failure> {
        let failed = |error| Failure::host("read", folder, error);
        self.take(ENTRY);
        self.items.push(Item { path: path.clone(), bytes: None });
        let mut names: Vec<OsString> = Vec::new();
        for entry in fs::read_dir(folder).map_err(failed)? {
            names.push(entry.map_err(failed)?.file_name());
        }
        names.sort();
        for name in output::steps(names, "entries read") {
            if self.too_much {
                break;
            }
            let file = folder.join(&name);
            let kind = fs::metadata(&file).map_err(|error| Failure::host("read", &file, error))?;
            let path = join(&path, &name.into_vec());
            if kind.is_dir() {
                self.directory(&file, path)?;
            } else if kind.is_file() {
                self.file(&file, path)?;
            } else {
                return Err(Failure::Host(format!("{} is neither a file nor a directory", file.display())));
            }
        }
        Ok(())
    }

    /// A file, and no more of it than one byte beyond what the largest card could still take.
    fn file(&mut self, file: &Path, path: Vec<u8>) -> Result<(), Failure> {
        self.take(ENTRY);
        let mut bytes = Vec::new();
        let most = self.room as u64 + 1;
        File::open(file)
            .and_then(|source| source.take(most).read_to_end(&mut bytes))
            .map_err(|error| Failure::host("read", file, error))?;
        self.take(bytes.len());
        self.items.push(Item { path, bytes: Some(bytes) });
        Ok(())
    }

    fn take(&mut self, bytes: usize) {
        self.too_much |= bytes > self.room;
        self.room = self.room.saturating_sub(bytes);
    }
}
