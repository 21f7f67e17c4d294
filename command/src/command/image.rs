//! A card with its image's name, which every refusal tells.

use std::path::Path;

use ps2card::{image_file, Card, Counts, Entry, Format, Line, Mended, Refusal};

use super::mended::Tally;
use super::{size_hint, standard_input, PLAIN};
use crate::failure::Failure;

pub struct Image<'a> {
    pub name: &'a Path,
    pub card: Card,
    /// The option that says that it is plain.
    option: &'static str,
    mended: Tally,
}

impl<'a> Image<'a> {
    /// The card in a file, in this format; `-` is standard input.
    pub fn load(format: Format, name: &'a Path) -> Result<Image<'a>, Failure> {
        Image::load_by(PLAIN, format, name)
    }

    /// The same, where another option says its format.
    pub fn load_by(option: &'static str, format: Format, name: &'a Path) -> Result<Image<'a>, Failure> {
        let card = match name == Path::new("-") {
            true => standard_input().map(|image| Card::new(format, image)),
            false => image_file::load(format, name),
        };
        let card = card.map_err(|error| Failure::host("read", name, error))?;
        Ok(Image { name, card, option, mended: Tally::default() })
    }

    pub fn check(&self) -> Result<Counts, Failure> {
        self.card.check().map_err(|refusal| self.refused(refusal))
    }

    pub fn list(&self, minutes: i32) -> Result<Vec<u8>, Failure> {
        self.card.list_at(minutes).map_err(|refusal| self.refused(refusal))
    }

    pub fn tree(&self) -> Result<Vec<Line>, Failure> {
        self.tree_at(0)
    }

    pub fn tree_at(&self, minutes: i32) -> Result<Vec<Line>, Failure> {
        self.looked(self.card.tree_mended_at(minutes)).map_err(|refusal| self.refused(refusal))
    }

    pub fn find(&self, path: &[u8]) -> Result<Entry, Failure> {
        self.looked(self.card.find_mended(path)).map_err(|refusal| self.refused_on(refusal, path))
    }

    pub fn step(&self, path: &[u8], slot: u32) -> Result<Option<(u32, Entry)>, Failure> {
        self.looked(self.card.step_mended(path, slot)).map_err(|refusal| self.refused_on(refusal, path))
    }

    fn looked<T>(&self, answer: Result<Mended<T>, Refusal>) -> Result<T, Refusal> {
        answer.map(|Mended { answer, chunks }| {
            self.mended.look(chunks);
            answer
        })
    }

    /// A file's bytes from an offset on, at most so many, on a card that was checked before: an unreadable page is
    /// then the file's. No two reads of a file may have a page in common: what is mended there would count twice.
    pub fn read(&self, path: &[u8], offset: usize, most: usize) -> Result<Vec<u8>, Refusal> {
        self.card.bytes_mended(path, offset, most).map(|Mended { answer, chunks }| {
            self.mended.read(chunks);
            answer
        })
    }

    /// The same, with the image's name in the refusal.
    pub fn bytes(&self, path: &[u8], offset: usize, most: usize) -> Result<Vec<u8>, Failure> {
        self.read(path, offset, most).map_err(|refusal| self.refused_at(refusal, path))
    }

    /// Says what was mended in all that was read. A command that is refused says nothing of it.
    pub fn tell_mended(&self) {
        self.mended.tell(self.name);
    }

    fn refused(&self, refusal: Refusal) -> Failure {
        Failure::refused(refusal, self.name).with_hint(Refusal::BadLength, &size_hint(&self.card, self.option))
    }

    /// A refusal of a call that reads a file.
    pub fn refused_at(&self, refusal: Refusal, path: &[u8]) -> Failure {
        Failure::refused_at(refusal, self.name, path).with_hint(Refusal::BadLength, &size_hint(&self.card, self.option))
    }

    /// A refusal of a call that reads no file: an unreadable page has nothing to do with the path.
    fn refused_on(&self, refusal: Refusal, path: &[u8]) -> Failure {
        match refusal {
            Refusal::UnreadablePage(_) => self.refused(refusal),
            _ => self.refused_at(refusal, path),
        }
    }
}
