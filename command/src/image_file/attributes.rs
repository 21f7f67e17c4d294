//! Owner, permissions, access lists and extended attributes: a new image has those of the old one, or there is none.

use std::ffi::{CStr, CString};
use std::fs::File;
use std::io;
use std::os::raw::{c_char, c_int, c_void};
use std::os::unix::fs::{fchown, MetadataExt};
use std::os::unix::io::AsRawFd;

extern "C" {
    fn flistxattr(fd: c_int, list: *mut c_char, size: usize) -> isize;
    fn fgetxattr(fd: c_int, name: *const c_char, value: *mut c_void, size: usize) -> isize;
    fn fsetxattr(fd: c_int, name: *const c_char, value: *const c_void, size: usize, flags: c_int) -> c_int;
    fn fremovexattr(fd: c_int, name: *const c_char) -> c_int;
}

/// The most that the system hands out as a list of names, or as a value.
const MOST: usize = 65_536;
/// ENODATA: no attribute of this name.
const NO_SUCH: i32 = 61;
/// EOPNOTSUPP: no attributes here at all.
const NONE_HERE: i32 = 95;

/// Gives a new file, which only its owner may open, what the model has. The owner is kept where the system lets this
/// user; all else is kept, or this is an error.
pub fn keep(model: &File, file: &File) -> io::Result<()> {
    let wanted = model.metadata()?;
    keep_owner(file, wanted.uid(), wanted.gid())?;
    let names = names(model)?;
    for name in self::names(file)?.iter().filter(|name| !names.contains(name)) {
        remove(file, name).map_err(|error| cannot("get rid of", name, &error))?;
    }
    for name in &names {
        let wanted = value(model, name)?;
        if value(file, name)? != wanted {
            set(file, name, wanted.as_deref().unwrap_or_default()).map_err(|error| cannot("keep", name, &error))?;
        }
    }
    // After the access list, whose mask the group's bits are.
    file.set_permissions(wanted.permissions())?;
    for name in &names {
        if value(file, name)? != value(model, name)? {
            return Err(cannot("keep", name, &io::Error::other("it reads back differently")));
        }
    }
    match file.metadata()?.mode() == wanted.mode() {
        true => Ok(()),
        false => Err(io::Error::other("its permissions cannot be kept")),
    }
}

/// Owner and group, else the group alone. Under another group its bits would let in others than before.
fn keep_owner(file: &File, user: u32, group: u32) -> io::Result<()> {
    let given = file.metadata()?;
    let both = || fchown(file, Some(user), Some(group)).is_ok();
    if (user, group) == (given.uid(), given.gid()) || both() || group == given.gid() {
        return Ok(());
    }
    fchown(file, None, Some(group))
        .map_err(|error| io::Error::new(error.kind(), format!("its group cannot be kept: {error}")))
}

fn cannot(doing: &str, name: &CStr, error: &io::Error) -> io::Error {
    io::Error::new(error.kind(), format!("cannot {doing} its attribute {}: {error}", name.to_string_lossy()))
}

fn names(file: &File) -> io::Result<Vec<CString>> {
    let mut list = vec![0u8; MOST];
    // SAFETY: the list has so many bytes, which the call writes at most; the descriptor is open.
    let count = unsafe { flistxattr(file.as_raw_fd(), list.as_mut_ptr().cast(), list.len()) };
    match told(count) {
        Ok(count) => Ok(list[..count].split(|&byte| byte == 0).filter(|name| !name.is_empty()).map(text).collect()),
        Err(error) if error.raw_os_error() == Some(NONE_HERE) => Ok(Vec::new()),
        Err(error) => Err(error),
    }
}

/// Bytes without a zero.
fn text(name: &[u8]) -> CString {
    CString::new(name).expect("what stands between zeros has none")
}

/// An attribute's value, if it is there.
fn value(file: &File, name: &CStr) -> io::Result<Option<Vec<u8>>> {
    let mut value = vec![0u8; MOST];
    // SAFETY: the name ends with a zero, the value has so many bytes, which the call writes at most.
    let count = unsafe { fgetxattr(file.as_raw_fd(), name.as_ptr(), value.as_mut_ptr().cast(), value.len()) };
    match told(count) {
        Ok(count) => Ok(Some(value[..count].to_vec())),
        Err(error) if matches!(error.raw_os_error(), Some(NO_SUCH | NONE_HERE)) => Ok(None),
        Err(error) => Err(error),
    }
}

fn set(file: &File, name: &CStr, value: &[u8]) -> io::Result<()> {
    // SAFETY: the name ends with a zero, the value has so many bytes, and the call only reads both.
    told(unsafe { fsetxattr(file.as_raw_fd(), name.as_ptr(), value.as_ptr().cast(), value.len(), 0) } as isize)?;
    Ok(())
}

fn remove(file: &File, name: &CStr) -> io::Result<()> {
    // SAFETY: the name ends with a zero, and the call only reads it.
    told(unsafe { fremovexattr(file.as_raw_fd(), name.as_ptr()) } as isize)?;
    Ok(())
}

/// What a system call answers: a count, or -1 for an error.
fn told(answer: isize) -> io::Result<usize> {
    usize::try_from(answer).map_err(|_| io::Error::last_os_error())
}
