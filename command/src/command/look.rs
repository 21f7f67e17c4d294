//! The commands that are one look each: list, find, step, read.

use ps2card::{Entry, MODE_BITS};

use super::image::Image;
use super::{look, print, Command};
use crate::arguments::{Call, Opt, Syntax};
use crate::failure::Failure;

pub const LIST: Command = Command {
    syntax: Syntax {
        name: "list",
        alias: None,
        words: 1..=1,
        options: &[Opt::Minutes, Opt::Zone, Opt::Plain],
        help: include_str!("../help/list.txt"),
    },
    run: |call| print(&Image::load(call.format(), call.image())?.list(call.minutes().unwrap_or(0))?),
};

pub const FIND: Command = Command {
    syntax: Syntax {
        name: "find",
        alias: Some("stat"),
        words: 2..=2,
        options: &[Opt::Plain],
        help: include_str!("../help/find.txt"),
    },
    run: |call| look(call, |image| find(image, call)),
};

pub const STEP: Command = Command {
    syntax: Syntax {
        name: "step",
        alias: None,
        words: 3..=3,
        options: &[Opt::Plain],
        help: include_str!("../help/step.txt"),
    },
    run: step,
};

pub const READ: Command = Command {
    syntax: Syntax {
        name: "read",
        alias: Some("cat"),
        words: 2..=4,
        options: &[Opt::Plain],
        help: include_str!("../help/read.txt"),
    },
    run: read,
};

fn find(image: &Image, call: &Call) -> Result<(), Failure> {
    let entry = image.find(call.bytes(1))?;
    let mut text = format!(
        "mode {}\nlength {}\ncreated {}\nmodified {}\nfirst {}\ndir_entry {}\nattribute {}\nname ",
        mode(&entry),
        entry.length,
        entry.created,
        entry.modified,
        entry.first,
        entry.dir_entry,
        entry.attribute
    )
    .into_bytes();
    text.extend_from_slice(entry.name());
    text.push(b'\n');
    print(&text)
}

/// The number, for programs, then for people the bits that have a name, and that the entry is locked where it is.
fn mode(entry: &Entry) -> String {
    let bits = MODE_BITS.iter().filter(|(bit, _)| entry.mode & bit != 0);
    let names: Vec<&str> = bits.map(|(_, name)| *name).collect();
    let locked = if entry.is_locked() { "; locked" } else { "" };
    format!("0x{:04x} ({}{locked})", entry.mode, names.join(", "))
}

fn step(call: &Call) -> Result<(), Failure> {
    let slot = call.number(2, "SLOT")?.unwrap_or(0);
    look(call, |image| match image.step(call.bytes(1), slot)? {
        Some((at, entry)) => print(&[format!("slot {at} ").as_bytes(), entry.name(), b"\n"].concat()),
        None => print(b"end\n"),
    })
}

fn read(call: &Call) -> Result<(), Failure> {
    let (path, offset) = (call.bytes(1), call.number(2, "OFFSET")?.unwrap_or(0));
    let most = call.number(3, "COUNT")?.unwrap_or(usize::MAX);
    look(call, |image| {
        let length = image.find(path)?.length as usize;
        print(&image.bytes(path, offset, most.min(length))?)
    })
}
