//! What a command says of the chunks that were mended in all that it read of an image, each page counted once.

use std::cell::Cell;
use std::path::Path;

use crate::failure::shown;
use crate::output;

/// Chunks that were mended so far. Every call checks the card and tells the check's chunks with its own: they count
/// once, and a read of a file adds what it tells beyond them. No two files have a page in common, and no file has one
/// with the check.
#[derive(Default)]
pub struct Tally {
    check: Cell<usize>,
    files: Cell<usize>,
}

impl Tally {
    /// A call that read no file told so many.
    pub fn look(&self, chunks: usize) {
        self.check.set(chunks);
    }

    /// A read of a file told so many, after a call that read none. Of one file, no two reads may have a page in common.
    pub fn read(&self, chunks: usize) {
        self.files.set(self.files.get() + chunks - self.check.get());
    }

    /// Says how many there were, where there were any.
    pub fn tell(&self, image: &Path) {
        if let Some(words) = words(self.check.get() + self.files.get()) {
            output::complain(&format!("ps2card: {}: {words}; the image is unchanged", shown(image)));
        }
    }
}

fn words(chunks: usize) -> Option<String> {
    match chunks {
        0 => None,
        1 => Some("1 chunk of 128 bytes had one wrong bit and was mended as it was read".to_string()),
        _ => Some(format!("{chunks} chunks of 128 bytes had one wrong bit each and were mended as they were read")),
    }
}
