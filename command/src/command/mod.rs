//! The commands, and what they share.

mod changes;
mod check;
mod compare;
mod convert;
mod fresh;
mod get;
mod image;
mod locked;
mod look;
mod ls;
mod mended;
mod put;
mod verify;

use std::fs::File;
use std::io;
use std::path::Path;

use ps2card::image_file::{self, Notice};
use ps2card::{Card, Format, Refusal};

use crate::arguments::{Call, Syntax};
use crate::failure::{shown, Failure};
use crate::output;
use image::Image;

/// A command: how it is called, and what it does.
pub struct Command {
    pub syntax: Syntax,
    pub run: fn(&Call) -> Result<(), Failure>,
}

/// Every command, in the order of the help.
pub const ALL: &[&Command] = &[
    &check::CHECK,
    &verify::VERIFY,
    &compare::COMPARE,
    &look::LIST,
    &ls::LS,
    &look::FIND,
    &look::STEP,
    &look::READ,
    &get::GET,
    &put::PUT,
    &changes::CREATE,
    &changes::REPLACE,
    &changes::DELETE,
    &changes::MKDIR,
    &changes::RMDIR,
    &fresh::NEW,
    &convert::CONVERT,
];

/// Writes to standard output.
pub fn print(bytes: &[u8]) -> Result<(), Failure> {
    output::print(bytes).map_err(Failure::of_output)
}

/// Runs a command that looks at one image, and says at the end what was mended on the way.
fn look(call: &Call, run: impl FnOnce(&Image) -> Result<(), Failure>) -> Result<(), Failure> {
    let image = Image::load(call.format(), call.image())?;
    run(&image)?;
    image.tell_mended();
    Ok(())
}

/// The bytes of a host file; `-` is standard input.
fn input(path: &Path) -> Result<Vec<u8>, Failure> {
    let bytes =
        if path == Path::new("-") { standard_input() } else { File::open(path).and_then(image_file::read_limited) };
    bytes.map_err(|error| Failure::host("read", path, error))
}

/// Standard input, to its end or beyond what a card has.
fn standard_input() -> io::Result<Vec<u8>> {
    output::listen(|| image_file::read_limited(io::stdin().lock()))
}

/// Changes the card in the image file; a refusal comes with the path on the card that it was met at.
fn change(call: &Call, edit: impl FnOnce(&mut Card) -> Result<(), (Refusal, Vec<u8>)>) -> Result<(), Failure> {
    let image = changeable(call)?;
    let mut met_at = None;
    let done = image_file::change(call.format(), image, &mut |notice| say(image, notice), |card| {
        edit(card).map_err(|(refusal, path)| {
            met_at = Some((hint(card, refusal, &path), path));
            refusal.into()
        })
    });
    done.map_err(|error| match (error, met_at) {
        (image_file::Error::Refused(refusal), Some((hint, path))) => {
            Failure::refused_at(refusal, image, &path).with_hint(refusal, &hint)
        }
        (error, _) => Failure::of_image("change", image, error),
    })
}

/// What more is to say of a change that is refused at a path, on the card as it was met.
fn hint(card: &Card, refusal: Refusal, path: &[u8]) -> String {
    match refusal {
        Refusal::BadLength => size_hint(card, PLAIN),
        Refusal::Locked => locked::hint(card, path),
        _ => String::new(),
    }
}

/// The option that says that the one image, or every one, is plain.
const PLAIN: &str = "--plain";

/// What is said of an image whose size is refused, where it is a card's in the other format; which option says of this
/// image that it is plain.
fn size_hint(card: &Card, option: &str) -> String {
    match card.format() {
        format if !format.other().is_length(card.image().len()) => String::new(),
        Format::Raw => format!("; its size is that of a plain card: say {option}"),
        Format::Plain => format!("; its size is that of a raw card: leave out {option}"),
    }
}

/// The image as a file that can be written: not standard input.
fn changeable(call: &Call) -> Result<&Path, Failure> {
    match call.image() {
        path if path == Path::new("-") => Err(call.usage("only commands that look take - as an image".to_string())),
        path => Ok(path),
    }
}

/// What a change says though it goes on, or is made.
fn say(file: &Path, notice: Notice) {
    let file = shown(file);
    output::complain(&match notice {
        Notice::Waits(Some(holder)) => {
            let name = holder.name.map(|name| format!(" ({name})")).unwrap_or_default();
            format!("ps2card: {file} is locked by process {}{name}; waiting for it", holder.process)
        }
        Notice::Waits(None) => format!("ps2card: {file} is locked by another process; waiting for it"),
        Notice::OtherNames(1) => format!("ps2card: {file} had one other name (a hard link); it keeps the old card"),
        Notice::OtherNames(count) => {
            format!("ps2card: {file} had {count} other names (hard links); they keep the old card")
        }
        Notice::Unsynced(error) => {
            format!(
                "ps2card: {file} is done, but after a power cut it may not be: its folder cannot be synced: {error}"
            )
        }
    });
}

/// The path of a name inside the directory at a path.
fn join(directory: &[u8], name: &[u8]) -> Vec<u8> {
    let directory = if directory == b"/" { b"" } else { directory };
    [directory, b"/", name].concat()
}
