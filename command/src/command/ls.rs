//! The command that shows a directory to people: ls.

use std::collections::HashMap;

use ps2card::{Kind, Line};

use super::image::Image;
use super::{look, print, Command};
use crate::arguments::{Call, Opt, Syntax};
use crate::failure::Failure;
use crate::output;

pub const LS: Command = Command {
    syntax: Syntax {
        name: "ls",
        alias: None,
        words: 1..=2,
        options: &[Opt::Long, Opt::Minutes, Opt::Zone, Opt::Plain],
        help: include_str!("../help/ls.txt"),
    },
    run: |call| look(call, |image| ls(image, call)),
};

/// One entry: kind, whether it is locked, size, the time where it is asked for, name.
struct Row {
    kind: Kind,
    locked: bool,
    size: String,
    time: Option<String>,
    name: String,
}

/// The column of the locks, with what stands between it and the next.
const LOCKED: &str = "locked  ";

fn ls(image: &Image, call: &Call) -> Result<(), Failure> {
    let path: &[u8] = if call.has(1) { call.bytes(1) } else { b"/" };
    let tree = image.tree_at(call.minutes().unwrap_or(0))?;
    let (around, lines): (_, Vec<&Line>) = match tree.iter().find(|line| line.path == path) {
        Some(line) if line.kind == Kind::File => (line.parent(), vec![line]),
        // In slot order, which the tree's order is inside a directory.
        found if found.is_some() || path == b"/" => (path, tree.iter().filter(|line| line.parent() == path).collect()),
        // Nothing stands there: the library says why.
        _ => return image.find(path).map(drop),
    };
    let around_is_locked = image.find(around)?.is_locked();
    let locks = locks(image, &lines)?;
    let mut text = String::new();
    if around_is_locked {
        let rule = "nothing directly inside it can be created, replaced or deleted";
        text += &format!("{} is locked: {rule}\n", around.escape_ascii());
    }
    text += &match lines.is_empty() {
        true => format!("{} is empty\n", path.escape_ascii()),
        false => shown(&rows(&tree, &lines, &locks, call.asked(Opt::Long) || call.minutes().is_some())),
    };
    print(text.as_bytes())
}

/// Whether each of the entries is locked. The listing has no modes: this is a look at each, with a check of its own.
fn locks(image: &Image, lines: &[&Line]) -> Result<Vec<bool>, Failure> {
    output::steps(lines, "entries").map(|line| Ok(image.find(&line.path)?.is_locked())).collect()
}

fn rows(tree: &[Line], lines: &[&Line], locks: &[bool], timed: bool) -> Vec<Row> {
    let mut inside: HashMap<&[u8], usize> = HashMap::new();
    tree.iter().for_each(|line| *inside.entry(line.parent()).or_default() += 1);
    let row = |(line, &locked): (&&Line, &bool)| {
        let size = match line.kind {
            Kind::File => counted(line.length as usize, "byte", "bytes"),
            Kind::Directory => counted(inside.get(&line.path[..]).copied().unwrap_or(0), "entry", "entries"),
        };
        let time = || line.modified.map_or("unknown".to_string(), |time| time.to_string());
        let name = line.path.rsplit(|&byte| byte == b'/').next().unwrap_or_default();
        Row { kind: line.kind, locked, size, time: timed.then(time), name: String::from_utf8_lossy(name).into_owned() }
    };
    lines.iter().zip(locks).map(row).collect()
}

fn counted(count: usize, one: &str, more: &str) -> String {
    format!("{count} {}", if count == 1 { one } else { more })
}

/// The rows, their columns aligned. That of the locks is there where a row needs it: either way, `locked` or a number
/// stands behind the kind.
fn shown(rows: &[Row]) -> String {
    let lock_width = if rows.iter().any(|row| row.locked) { LOCKED.len() } else { 0 };
    let size_width = rows.iter().map(|row| row.size.len()).max().unwrap_or(0);
    let time_width = rows.iter().filter_map(|row| row.time.as_ref()).map(String::len).max().unwrap_or(0);
    let line = |Row { kind, locked, size, time, name }: &Row| {
        let kind = match kind {
            Kind::File => "file",
            Kind::Directory => "dir",
        };
        let lock = if *locked { LOCKED } else { "" };
        let start = format!("{kind:4}  {lock:lock_width$}{size:>size_width$}");
        match time {
            Some(time) => format!("{start}  {time:time_width$}  {name}\n"),
            None => format!("{start}  {name}\n"),
        }
    };
    rows.iter().map(line).collect()
}
