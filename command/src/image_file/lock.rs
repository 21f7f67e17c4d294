//! The lock of an image: one change at a time, and a word to whoever waits.

use std::fs::{self, File, OpenOptions, TryLockError};
use std::io;
use std::os::unix::fs::MetadataExt;
use std::path::Path;
use std::thread::sleep;
use std::time::{Duration, Instant};

use super::{Notice, Tell};

/// Waits shorter than this are not worth a word.
const PATIENCE: Duration = Duration::from_secs(1);

/// Opens the image for a change and waits for its lock. Whoever held it may have put a new file in its place: then
/// that one is locked.
pub fn image(path: &Path, tell: Tell) -> io::Result<File> {
    loop {
        let file = OpenOptions::new().read(true).write(true).open(path)?;
        // A device or a pipe must not be replaced by a file.
        if !file.metadata()?.is_file() {
            return Err(io::Error::new(io::ErrorKind::InvalidInput, "this is no regular file"));
        }
        wait(&file, tell)?;
        if is_at(&file, path) {
            return Ok(file);
        }
    }
}

/// Whether the open file is the one at the path.
pub fn is_at(file: &File, path: &Path) -> bool {
    match (file.metadata(), fs::symlink_metadata(path)) {
        (Ok(held), Ok(named)) => (held.dev(), held.ino()) == (named.dev(), named.ino()),
        _ => false,
    }
}

/// Locks an open file or directory if nobody holds it; whether it did.
pub fn try_lock(file: &File) -> io::Result<bool> {
    match file.try_lock() {
        Ok(()) => Ok(true),
        Err(TryLockError::WouldBlock) => Ok(false),
        Err(TryLockError::Error(error)) => Err(error),
    }
}

fn wait(file: &File, tell: Tell) -> io::Result<()> {
    let start = Instant::now();
    let mut told = false;
    while !try_lock(file)? {
        if !told && start.elapsed() >= PATIENCE {
            tell(Notice::Waits(Holder::of(file)));
            told = true;
        }
        sleep(Duration::from_millis(if told { 100 } else { 10 }));
    }
    Ok(())
}

/// A process that holds a lock.
#[derive(Clone, Debug, PartialEq, Eq)]
pub struct Holder {
    /// Its number.
    pub process: u32,
    /// The name of its program, where the system tells it.
    pub name: Option<String>,
}

impl Holder {
    /// Who holds a file's lock, by the system's list of locks.
    fn of(file: &File) -> Option<Holder> {
        let metadata = file.metadata().ok()?;
        let process = holding(&fs::read_to_string("/proc/locks").ok()?, metadata.dev(), metadata.ino())?;
        let name = fs::read_to_string(format!("/proc/{process}/comm")).ok();
        Some(Holder { process, name: name.map(|name| name.trim_end().to_string()) })
    }
}

/// The process of the line `N: FLOCK ADVISORY WRITE PROCESS MAJOR:MINOR:INODE 0 EOF` of this file. One that waits has
/// an arrow after the number.
fn holding(locks: &str, device: u64, inode: u64) -> Option<u32> {
    // As the system packs a device's number.
    let major = device >> 8 & 0xFFF | device >> 32 & 0xFFFF_F000;
    let minor = device & 0xFF | device >> 12 & 0xFFFF_FF00;
    let place = format!("{major:02x}:{minor:02x}:{inode}");
    locks.lines().find_map(|line| {
        let words: Vec<&str> = line.split_whitespace().collect();
        match words[..] {
            [_, "FLOCK", _, _, process, at, ..] if at == place => process.parse().ok(),
            _ => None,
        }
    })
}

#[cfg(test)]
mod tests {
    use super::*;

    #[test]
    fn lines_of_locks() {
        let locks = "1: POSIX  ADVISORY  WRITE 100 fe:00:77 0 EOF\n\
                     2: FLOCK  ADVISORY  WRITE 200 fe:00:77 0 EOF\n\
                     2: -> FLOCK  ADVISORY  WRITE 300 fe:00:77 0 EOF\n\
                     3: FLOCK  ADVISORY  WRITE 400 fe:01:78 0 EOF\n";
        assert_eq!(holding(locks, 0xFE00, 77), Some(200));
        assert_eq!(holding(locks, 0xFE01, 78), Some(400));
        assert_eq!((holding(locks, 0xFE00, 78), holding("", 0xFE00, 77)), (None, None));
    }
}
