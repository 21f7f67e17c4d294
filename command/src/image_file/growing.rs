//! A file or directory of the host that is whole before it has its name. Until then its name is hidden and it is
//! locked; what a cut left is known by its name and by nobody holding it, and the next run in the folder removes it.

use std::ffi::CString;
use std::fs::{self, DirBuilder, File, OpenOptions};
use std::io;
use std::os::raw::{c_char, c_int, c_uint};
use std::os::unix::ffi::OsStrExt;
use std::os::unix::fs::OpenOptionsExt;
use std::path::{Path, PathBuf};

use super::lock::{is_at, try_lock};

/// How the hidden names begin; the process and a number follow.
const HIDDEN: &str = ".ps2card-new-";

/// O_NOFOLLOW, O_NONBLOCK: open nothing that a link names, and wait for nobody at a pipe's other end.
const CAREFUL: c_int = 0o400_000 | 0o4_000;

extern "C" {
    fn renameat2(old_folder: c_int, old: *const c_char, new_folder: c_int, new: *const c_char, flags: c_uint) -> c_int;
}

const WORKING_FOLDER: c_int = -100;
const NEVER_OVER: c_uint = 1;

/// A hidden file or directory beside its future name; gone again if it is dropped before it has it.
pub struct Growing {
    at: PathBuf,
    held: File,
    is_directory: bool,
    placed: bool,
}

impl Growing {
    /// A hidden empty file in the target's folder, open to write and to read back. The mode is cut by the user's mask.
    pub fn file(target: &Path, mode: u32) -> io::Result<Growing> {
        let make = |at: &Path| OpenOptions::new().read(true).write(true).create_new(true).mode(mode).open(at);
        Growing::new(target, false, &make)
    }

    /// A hidden empty directory in the target's folder.
    pub fn directory(target: &Path) -> io::Result<Growing> {
        let make = |at: &Path| {
            DirBuilder::new().create(at)?;
            // Who sweeps the folder may have taken it away: then the next name, as for one that is taken.
            File::open(at).map_err(|error| match error.kind() {
                io::ErrorKind::NotFound => io::ErrorKind::AlreadyExists.into(),
                _ => error,
            })
        };
        Growing::new(target, true, &make)
    }

    fn new(target: &Path, is_directory: bool, make: &dyn Fn(&Path) -> io::Result<File>) -> io::Result<Growing> {
        if target.file_name().is_none() {
            return Err(io::Error::new(io::ErrorKind::InvalidInput, "this names no file"));
        }
        let folder = folder_of(target);
        sweep(folder);
        for number in 0.. {
            let at = folder.join(format!("{HIDDEN}{}-{number}", std::process::id()));
            let held = match make(&at) {
                Err(error) if error.kind() == io::ErrorKind::AlreadyExists => continue,
                held => held?,
            };
            let growing = Growing { at, held, is_directory, placed: false };
            // Who sweeps the folder may have been quicker: then the next name. Where nothing can be locked, nothing is
            // swept either.
            if try_lock(&growing.held).unwrap_or(true) && is_at(&growing.held, &growing.at) {
                return Ok(growing);
            }
        }
        unreachable!("a number that no file has")
    }

    /// Its hidden path.
    pub fn at(&self) -> &Path {
        &self.at
    }

    /// The open file; of a directory, the directory.
    pub fn handle(&self) -> &File {
        &self.held
    }

    /// Gives it its name, never over what has it already.
    pub fn place_new(mut self, target: &Path) -> io::Result<()> {
        match rename_never_over(&self.at, target) {
            // EINVAL, ENOSYS: this file system or kernel cannot.
            Err(error) if matches!(error.raw_os_error(), Some(22 | 38)) => self.place_without_it(target)?,
            placed => placed?,
        }
        self.placed = true;
        Ok(())
    }

    /// A file by a second name; where there is none of these either, and for a directory, after a look. A directory
    /// never takes the place of a file or of a directory with something in it.
    fn place_without_it(&self, target: &Path) -> io::Result<()> {
        if !self.is_directory {
            match fs::hard_link(&self.at, target) {
                // It has its name; a hidden one that stays is swept by the next run.
                Ok(()) => return fs::remove_file(&self.at).or(Ok(())),
                Err(error) if error.kind() == io::ErrorKind::AlreadyExists => return Err(error),
                Err(_) => {}
            }
        }
        absent(target)?;
        fs::rename(&self.at, target)
    }

    /// Gives it its name in the place of what has it.
    pub fn place_over(mut self, target: &Path) -> io::Result<()> {
        fs::rename(&self.at, target)?;
        self.placed = true;
        Ok(())
    }
}

impl Drop for Growing {
    fn drop(&mut self) {
        if !self.placed && is_at(&self.held, &self.at) {
            remove(&self.at, self.is_directory);
        }
    }
}

/// An error where something has this name, even a link that leads nowhere.
pub fn absent(path: &Path) -> io::Result<()> {
    match fs::symlink_metadata(path) {
        Ok(_) => Err(io::Error::from_raw_os_error(17)),
        Err(error) if error.kind() == io::ErrorKind::NotFound => Ok(()),
        Err(error) => Err(error),
    }
}

/// Makes the new name of a file last through a cut.
pub fn sync_folder(path: &Path) -> io::Result<()> {
    File::open(folder_of(path))?.sync_all()
}

fn folder_of(path: &Path) -> &Path {
    path.parent().filter(|folder| !folder.as_os_str().is_empty()).unwrap_or_else(|| Path::new("."))
}

/// Removes what cuts left in a folder: hidden names of ours that nobody holds. Whatever cannot be removed stays.
fn sweep(folder: &Path) {
    for entry in fs::read_dir(folder).into_iter().flatten().flatten() {
        if entry.file_name().as_bytes().starts_with(HIDDEN.as_bytes()) {
            let _ = sweep_one(&entry.path());
        }
    }
}

fn sweep_one(at: &Path) -> io::Result<()> {
    let kind = fs::symlink_metadata(at)?.file_type();
    if kind.is_symlink() {
        return fs::remove_file(at);
    }
    if !kind.is_dir() && !kind.is_file() {
        return Ok(());
    }
    // A network's lock may ask for a file that is open for writing.
    let held = OpenOptions::new().read(true).write(kind.is_file()).custom_flags(CAREFUL).open(at)?;
    if try_lock(&held)? && is_at(&held, at) {
        remove(at, kind.is_dir());
    }
    Ok(())
}

fn remove(at: &Path, is_directory: bool) {
    let _ = if is_directory { fs::remove_dir_all(at) } else { fs::remove_file(at) };
}

fn rename_never_over(old: &Path, new: &Path) -> io::Result<()> {
    let (old, new) = (CString::new(old.as_os_str().as_bytes())?, CString::new(new.as_os_str().as_bytes())?);
    // SAFETY: both paths end with a zero and outlive the call, which only reads them.
    match unsafe { renameat2(WORKING_FOLDER, old.as_ptr(), WORKING_FOLDER, new.as_ptr(), NEVER_OVER) } {
        0 => Ok(()),
        _ => Err(io::Error::last_os_error()),
    }
}
