//! Whole calls on the full card, by the library and by the reader, straight on the image: no copy and no guard bytes.

use reader::build::usual_time;
use reader::content::lines;
use reader::Format::{self, Plain, Raw};
use reader::{Change, Entry};

use crate::cards::full;
use crate::in_place;

/// Minutes from Japan to UTC, in which the card is listed, and room for that text and for any file of the card.
const UTC: i32 = -540;
const ROOM: usize = 1 << 20;
/// Bytes of a file that is written: as many as the longest on the card has.
const WRITTEN: usize = 2500;

#[derive(Clone, Copy, Debug, PartialEq, Eq)]
pub enum Side {
    Library,
    Reader,
}

impl Side {
    pub const BOTH: [Side; 2] = [Side::Library, Side::Reader];
}

/// PCSX2's full card with one empty directory more, its twin without spare bytes, and the paths of its files.
pub struct Card {
    pub raw: Vec<u8>,
    pub plain: Vec<u8>,
    pub files: Vec<Vec<u8>>,
}

/// The path of the empty directory.
const EMPTY: &[u8] = b"/EMPTY";

impl Card {
    pub fn full() -> Card {
        let mut raw = full(Raw);
        reader::make_dir(Raw, &mut raw, EMPTY, &usual_time()).expect("the full card has room");
        let mut plain = vec![0; raw.len() / Raw.page_bytes() * Plain.page_bytes()];
        reader::to_plain(&raw, &mut plain).expect("every page of the full card is readable");
        let lines = lines(Raw, &raw).expect("the full card is accepted").into_iter();
        let files = lines.filter(|line| !line.item.is_directory).map(|line| line.path).collect();
        Card { raw, plain, files }
    }

    pub fn image(&mut self, format: Format) -> &mut Vec<u8> {
        match format {
            Raw => &mut self.raw,
            Plain => &mut self.plain,
        }
    }
}

/// One call with all it is given.
#[derive(Clone, Debug)]
pub enum Work {
    Find(Vec<u8>),
    Step(Vec<u8>, u32),
    Read(Vec<u8>),
    List,
    Change(Change),
    ToPlain,
    ToRaw,
}

/// What a call answers beside what it writes.
#[derive(Clone, Debug, PartialEq, Eq)]
pub enum Told {
    Entry(Entry),
    Next(Option<(usize, Entry)>),
    Bytes(usize),
    Done,
}

impl Work {
    /// Each call once, by its name: on the last file of the card, in and beside its directory.
    pub fn all(card: &Card) -> Vec<(&'static str, Work)> {
        let path = card.files.last().expect("files").clone();
        let end = path.iter().rposition(|&byte| byte == b'/').expect("a path");
        let (around, time) = (path[..end].to_vec(), usual_time());
        let new = [&around[..], b"/NEW"].concat();
        let data = vec![0xA5; WRITTEN];
        let change = |change| Work::Change(change);
        vec![
            ("find", Work::Find(path.clone())),
            ("step", Work::Step(around, 2)),
            ("read", Work::Read(path.clone())),
            ("list", Work::List),
            ("create", change(Change::Create { path: new.clone(), time, data: data.clone() })),
            ("replace", change(Change::Replace { path: path.clone(), time, data })),
            ("delete", change(Change::Delete { path })),
            ("make directory", change(Change::MakeDir { path: new, time })),
            ("remove directory", change(Change::RemoveDir { path: EMPTY.to_vec() })),
            ("to plain", Work::ToPlain),
            ("to raw", Work::ToRaw),
        ]
    }

    /// The format of the image that it is done on.
    pub fn format(&self) -> Format {
        match self {
            Work::ToRaw => Plain,
            _ => Raw,
        }
    }

    /// How much room it needs for what it writes beside the image.
    pub fn room(&self, card: &Card) -> usize {
        match self {
            Work::Read(_) | Work::List => ROOM,
            Work::ToPlain => card.plain.len(),
            Work::ToRaw => card.raw.len(),
            Work::Find(_) | Work::Step(..) | Work::Change(_) => 0,
        }
    }

    /// Does it; nothing where it is refused.
    pub fn run(&self, side: Side, image: &mut [u8], out: &mut [u8]) -> Option<Told> {
        match side {
            Side::Library => self.by_library(image, out),
            Side::Reader => self.by_reader(image, out),
        }
    }

    fn by_library(&self, image: &mut [u8], out: &mut [u8]) -> Option<Told> {
        match self {
            Work::Find(path) => crate::find(Raw, image, path).ok().map(Told::Entry),
            Work::Step(path, slot) => crate::step(Raw, image, path, *slot).ok().map(Told::Next),
            Work::Read(path) => in_place::read(Raw, image, path, 0, out).map(Told::Bytes),
            Work::List => Some(Told::Bytes(in_place::list(Raw, image, UTC, out))),
            Work::Change(change) => in_place::apply(Raw, change, image).then_some(Told::Done),
            Work::ToPlain => in_place::to_plain(image, out).then_some(Told::Done),
            Work::ToRaw => in_place::to_raw(image, out).then_some(Told::Done),
        }
    }

    fn by_reader(&self, image: &mut [u8], out: &mut [u8]) -> Option<Told> {
        match self {
            Work::Find(path) => reader::find(Raw, image, path).ok().map(Told::Entry),
            Work::Step(path, slot) => reader::step(Raw, image, path, *slot as usize).ok().map(Told::Next),
            Work::Read(path) => reader::read(Raw, image, path, 0, out).ok().map(Told::Bytes),
            Work::List => {
                let text = reader::list(Raw, image, UTC);
                out[..text.len()].copy_from_slice(text.as_bytes());
                Some(Told::Bytes(text.len()))
            }
            Work::Change(change) => change.apply(Raw, image).ok().map(|()| Told::Done),
            Work::ToPlain => reader::to_plain(image, out).ok().map(|()| Told::Done),
            Work::ToRaw => reader::to_raw(image, out).ok().map(|()| Told::Done),
        }
    }
}
