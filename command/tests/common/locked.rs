//! Cards with locked entries, and what the command says of them.

use reader::build::locks::{self, alter_mode, place, set_each, Which};
use reader::rng::Rng;
use reader::{build, Format};

/// What a refusal with 16 says, but for which entries are locked, and where it was met.
pub const WORDS: &str = "refused 16: it is locked: the write bit (mode 0x0002) of the file or directory itself, or of the directory directly around it, is clear";

/// Gives the entry at a path this mode.
pub fn set_mode(format: Format, image: &mut [u8], path: &str, mode: u16) {
    let page = place(format, image, path.as_bytes(), Which::Own);
    alter_mode(format, image, page, |_| mode);
}

/// Locks the entries at these paths.
pub fn lock(format: Format, image: &mut [u8], paths: &[&str]) {
    paths.iter().for_each(|path| locks::lock(format, image, path.as_bytes()));
}

/// Locks every entry, the root's too.
pub fn lock_all(format: Format, image: &mut [u8]) {
    set_each(format, image, |_| false);
}

/// Locks each entry, the root's too, with a chance of so many in ten, and unlocks the others.
pub fn lock_some(format: Format, image: &mut [u8], rng: &mut Rng, in_ten: usize) {
    set_each(format, image, |_| !rng.chance(in_ten, 10));
}

/// Clears the write bit of the directory's own `.` or `..`.
pub fn lock_dots(format: Format, image: &mut [u8], directory: &str, which: Which) {
    locks::set(format, image, directory.as_bytes(), which, false);
}

/// The bench card with these directories and files of five bytes, in this order; nothing is locked.
pub fn card(format: Format, directories: &[&str], files: &[&str]) -> Vec<u8> {
    let (mut image, time) = (build::bench(format), build::usual_time());
    for path in directories {
        reader::make_dir(format, &mut image, path.as_bytes(), &time).expect("room");
    }
    for path in files {
        reader::create(format, &mut image, path.as_bytes(), &time, b"bytes").expect("room");
    }
    image
}
