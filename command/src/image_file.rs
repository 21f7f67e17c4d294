//! Image files on the host. A change never writes into the image: a whole new file takes its place, so that a cut at
//! any moment leaves the old image or the new one, and a lock lets one change at a time through.
//!
//! ```
//! use ps2card::{image_file, Card, Format, Stamp};
//!
//! let folder = std::env::temp_dir().join(format!("ps2card-example-{}", std::process::id()));
//! std::fs::create_dir(&folder)?;
//! let path = folder.join("card.ps2");
//! let mut tell = |notice| eprintln!("{notice:?}");
//! image_file::create(&path, &mut tell, &Card::fresh(Format::Raw, 56, &Stamp::now())?)?;
//! image_file::change(Format::Raw, &path, &mut tell, |card| Ok(card.make_dir(b"/SAVE", &Stamp::now())?))?;
//! assert_eq!(image_file::load(Format::Raw, &path)?.tree()?.len(), 1);
//! std::fs::remove_dir_all(&folder)?;
//! # Ok::<(), Box<dyn std::error::Error>>(())
//! ```

mod attributes;
mod growing;
mod lock;
mod state;

use std::fs::{self, File};
use std::io::{self, Read, Seek, Write};
use std::os::unix::fs::MetadataExt;
use std::path::Path;

use crate::{Card, Format, Refusal, MOST_BYTES};

pub use growing::{absent, sync_folder, Growing};
pub use lock::Holder;

/// Why a file's card was not changed, or not made. The file is as it was.
#[derive(Debug)]
pub enum Error {
    /// By the rules of the card.
    Refused(Refusal),
    /// A file of the host cannot be read or written.
    Host(io::Error),
}

impl From<Refusal> for Error {
    fn from(refusal: Refusal) -> Error {
        Error::Refused(refusal)
    }
}

impl From<io::Error> for Error {
    fn from(error: io::Error) -> Error {
        Error::Host(error)
    }
}

/// What is worth a word though the change goes on, or is made.
#[derive(Debug)]
pub enum Notice {
    /// Another process holds the lock, and this one waits for it.
    Waits(Option<Holder>),
    /// The image has so many other names (hard links); they keep the old card.
    OtherNames(u64),
    /// It is done; only that the folder remembers it through a power cut is not certain.
    Unsynced(io::Error),
}

/// Who hears the notices of a change.
pub type Tell<'a> = &'a mut dyn FnMut(Notice);

/// All bytes of a source, or one more than the largest card has: what is longer is refused just the same.
pub fn read_limited(source: impl Read) -> io::Result<Vec<u8>> {
    let mut bytes = Vec::new();
    source.take(MOST_BYTES as u64 + 1).read_to_end(&mut bytes)?;
    Ok(bytes)
}

/// The card in a file. What another program writes while it is read would be half old and half new: that is an error.
pub fn load(format: Format, path: &Path) -> io::Result<Card> {
    let file = File::open(path)?;
    let before = file.metadata()?;
    let image = read_limited(&file)?;
    let after = file.metadata()?;
    // A pipe's times move as it is read.
    match before.is_file() && (before.len(), before.modified()?) != (after.len(), after.modified()?) {
        true => Err(io::Error::other("another program is writing it")),
        false => Ok(Card::new(format, image)),
    }
}

/// Makes a change of the card in a file, alone under its lock. A refusal or a host error leaves the file as it was, and
/// so does another program that writes or replaces the image meanwhile.
pub fn change(
    format: Format,
    path: &Path,
    tell: Tell,
    edit: impl FnOnce(&mut Card) -> Result<(), Error>,
) -> Result<(), Error> {
    // A link is followed, so that its target is replaced and not the link.
    let path = fs::canonicalize(path)?;
    let held = lock::image(&path, tell)?;
    let before = state::State::of(&held.metadata()?);
    let image = read_limited(&held)?;
    let mut card = Card::new(format, image.clone());
    edit(&mut card)?;
    // Until it has the image's own permissions, nobody else may read it.
    let new = Growing::file(&path, 0o600)?;
    new.handle().write_all(card.image())?;
    attributes::keep(&held, new.handle())?;
    written(&new, &card)?.check()?;
    (&held).rewind()?;
    if read_limited(&held)? != image || !before.still(&held, &path) {
        return Err(io::Error::other("another program changed it meanwhile; it stays as that left it").into());
    }
    let other_names = held.metadata()?.nlink().saturating_sub(1);
    new.place_over(&path)?;
    if other_names > 0 {
        tell(Notice::OtherNames(other_names));
    }
    settle(&path, tell);
    Ok(())
}

/// Puts a card into a file that must not exist yet. A card that the library refuses is not put there.
pub fn create(path: &Path, tell: Tell, card: &Card) -> Result<(), Error> {
    make(path, tell, card, |read_back| Ok(read_back.check().map(drop)?))
}

/// Puts an image into a file that must not exist yet, whatever it holds: a converted image need not be a sound card.
pub fn create_unjudged(path: &Path, tell: Tell, card: &Card) -> Result<(), Error> {
    make(path, tell, card, |_| Ok(()))
}

fn make(path: &Path, tell: Tell, card: &Card, judge: impl FnOnce(&Card) -> Result<(), Error>) -> Result<(), Error> {
    absent(path)?;
    let new = Growing::file(path, 0o666)?;
    new.handle().write_all(card.image())?;
    judge(&written(&new, card)?)?;
    new.place_new(path)?;
    settle(path, tell);
    Ok(())
}

/// Syncs a new file and reads it back.
fn written(new: &Growing, card: &Card) -> io::Result<Card> {
    let mut file = new.handle();
    file.sync_all()?;
    file.rewind()?;
    let read_back = Card::new(card.format(), read_limited(file)?);
    match read_back.image() == card.image() {
        true => Ok(read_back),
        false => Err(io::Error::other("what was written reads back differently")),
    }
}

/// The new name is there; that it lasts through a cut is worth a word where it is not certain.
fn settle(path: &Path, tell: Tell) {
    if let Err(error) = sync_folder(path) {
        tell(Notice::Unsynced(error));
    }
}
