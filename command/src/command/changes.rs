//! The commands that change what stands at one path: create, replace, delete, mkdir, rmdir.

use ps2card::{Card, Kind, Refusal};

use super::{change, input, Command};
use crate::arguments::{Call, Opt, Syntax};
use crate::failure::Failure;
use crate::output;

pub const CREATE: Command = Command {
    syntax: Syntax {
        name: "create",
        alias: None,
        words: 3..=3,
        options: &[Opt::Stamp, Opt::Plain],
        help: include_str!("../help/create.txt"),
    },
    run: create,
};

pub const REPLACE: Command = Command {
    syntax: Syntax {
        name: "replace",
        alias: None,
        words: 3..=3,
        options: &[Opt::Stamp, Opt::Plain],
        help: include_str!("../help/replace.txt"),
    },
    run: replace,
};

pub const DELETE: Command = Command {
    syntax: Syntax {
        name: "delete",
        alias: Some("rm"),
        words: 2..=2,
        options: &[Opt::Recursive, Opt::Plain],
        help: include_str!("../help/delete.txt"),
    },
    run: delete,
};

pub const MKDIR: Command = Command {
    syntax: Syntax {
        name: "mkdir",
        alias: None,
        words: 2..=2,
        options: &[Opt::Stamp, Opt::Plain],
        help: include_str!("../help/mkdir.txt"),
    },
    run: |call| at_path(call, |card| card.make_dir(call.bytes(1), &call.stamp())),
};

pub const RMDIR: Command = Command {
    syntax: Syntax {
        name: "rmdir",
        alias: None,
        words: 2..=2,
        options: &[Opt::Plain],
        help: include_str!("../help/rmdir.txt"),
    },
    run: |call| at_path(call, |card| card.remove_dir(call.bytes(1))),
};

/// One change at the path given.
fn at_path(call: &Call, edit: impl FnOnce(&mut Card) -> Result<(), Refusal>) -> Result<(), Failure> {
    change(call, |card| edit(card).map_err(|refusal| (refusal, call.bytes(1).to_vec())))
}

// The host file is read before the image is locked: standard input may take its time.
fn create(call: &Call) -> Result<(), Failure> {
    let bytes = input(call.file(2))?;
    at_path(call, |card| card.create(call.bytes(1), &call.stamp(), &bytes))
}

fn replace(call: &Call) -> Result<(), Failure> {
    let bytes = input(call.file(2))?;
    at_path(call, |card| card.replace(call.bytes(1), &call.stamp(), &bytes))
}

fn delete(call: &Call) -> Result<(), Failure> {
    match call.asked(Opt::Recursive) {
        true => change(call, |card| delete_all(card, call.bytes(1))),
        false => at_path(call, |card| card.delete(call.bytes(1))),
    }
}

/// Deletes a file, or a directory with all below it, what lies deepest first.
fn delete_all(card: &mut Card, path: &[u8]) -> Result<(), (Refusal, Vec<u8>)> {
    let met = |refusal: Refusal, path: &[u8]| (refusal, path.to_vec());
    match card.delete(path) {
        // A file on the way is refused in the same words as a directory at the end.
        Err(Refusal::WrongKind) => card.find(path).map_err(|refusal| met(refusal, path))?,
        done => return done.map_err(|refusal| met(refusal, path)),
    };
    let start = [path, b"/"].concat();
    let tree = card.tree().map_err(|refusal| met(refusal, path))?;
    // In tree order a directory stands before its inside.
    let below = tree.iter().rev().filter(|line| line.path.starts_with(&start)).map(|line| (line.kind, &line.path[..]));
    let all: Vec<_> = below.chain([(Kind::Directory, path)]).collect();
    for (kind, path) in output::steps(all, "entries deleted") {
        let done = match kind {
            Kind::File => card.delete(path),
            Kind::Directory => card.remove_dir(path),
        };
        done.map_err(|refusal| met(refusal, path))?;
    }
    Ok(())
}
