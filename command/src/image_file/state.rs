//! What tells one state of a file from another without reading it.

use std::fs::{self, File, Metadata};
use std::os::unix::fs::MetadataExt;
use std::path::Path;

/// Which file it is, its size, and when its bytes and its attributes last changed.
#[derive(Clone, Copy, Debug, PartialEq, Eq)]
pub struct State {
    file: (u64, u64),
    size: u64,
    modified: (i64, i64),
    changed: (i64, i64),
}

impl State {
    pub fn of(metadata: &Metadata) -> State {
        State {
            file: (metadata.dev(), metadata.ino()),
            size: metadata.size(),
            modified: (metadata.mtime(), metadata.mtime_nsec()),
            changed: (metadata.ctime(), metadata.ctime_nsec()),
        }
    }

    /// Whether the open file is as it was, and still the one at the path.
    pub fn still(&self, held: &File, path: &Path) -> bool {
        let same = |metadata: Metadata| State::of(&metadata) == *self;
        held.metadata().is_ok_and(same) && fs::symlink_metadata(path).is_ok_and(same)
    }
}
