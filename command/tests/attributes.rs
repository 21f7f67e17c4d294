//! Access lists and extended attributes: kept by a change, or the change is refused; access never widens.

mod common;

use std::ffi::CString;
use std::fs::{self, Permissions};
use std::io;
use std::os::raw::{c_char, c_int, c_void};
use std::os::unix::ffi::OsStrExt;
use std::os::unix::fs::{chown, MetadataExt, PermissionsExt};
use std::os::unix::process::CommandExt;
use std::path::Path;

use common::{Folder, Outcome};
use reader::build;
use reader::Format::Raw;

extern "C" {
    fn setxattr(path: *const c_char, name: *const c_char, value: *const c_void, size: usize, flags: c_int) -> c_int;
    fn getxattr(path: *const c_char, name: *const c_char, value: *mut c_void, size: usize) -> isize;
}

fn set(path: &Path, name: &str, value: &[u8]) -> io::Result<()> {
    let (path, name) = (CString::new(path.as_os_str().as_bytes())?, CString::new(name)?);
    // SAFETY: both texts end with a zero, and the value has so many bytes.
    match unsafe { setxattr(path.as_ptr(), name.as_ptr(), value.as_ptr().cast(), value.len(), 0) } {
        0 => Ok(()),
        _ => Err(io::Error::last_os_error()),
    }
}

fn get(path: &Path, name: &str) -> Option<Vec<u8>> {
    let (path, name) = (CString::new(path.as_os_str().as_bytes()).ok()?, CString::new(name).ok()?);
    let mut value = vec![0; 4096];
    // SAFETY: both texts end with a zero, and the value has room for so many bytes.
    let count = unsafe { getxattr(path.as_ptr(), name.as_ptr(), value.as_mut_ptr().cast(), value.len()) };
    usize::try_from(count).ok().map(|count| value[..count].to_vec())
}

const ACCESS: &str = "system.posix_acl_access";
const DEFAULT: &str = "system.posix_acl_default";

/// An access list as the system packs it: version 2, then tag, permissions and id of each line.
fn acl(lines: &[(u16, u16, u32)]) -> Vec<u8> {
    let line = |(tag, permissions, id): &(u16, u16, u32)| {
        [&tag.to_le_bytes()[..], &permissions.to_le_bytes(), &id.to_le_bytes()].concat()
    };
    [2u32.to_le_bytes().to_vec(), lines.iter().flat_map(line).collect()].concat()
}

const OWNER: u16 = 1;
const USER: u16 = 2;
const GROUP: u16 = 4;
const MASK: u16 = 0x10;
const OTHERS: u16 = 0x20;
const NOBODY: u32 = u32::MAX;

/// Owner may read and write, user 1234 read, nobody else anything.
fn private() -> Vec<u8> {
    acl(&[(OWNER, 6, NOBODY), (USER, 4, 1234), (GROUP, 0, NOBODY), (MASK, 4, NOBODY), (OTHERS, 0, NOBODY)])
}

/// New files of the folder may be read and written by user 4321.
fn generous() -> Vec<u8> {
    acl(&[(OWNER, 7, NOBODY), (USER, 7, 4321), (GROUP, 7, NOBODY), (MASK, 7, NOBODY), (OTHERS, 7, NOBODY)])
}

fn mode(path: &Path) -> u32 {
    fs::metadata(path).expect("there").permissions().mode() & 0o7777
}

#[test]
fn kept() {
    let folder = Folder::new();
    let card = folder.write("card", &build::bench(Raw));
    set(&card, "user.note", b"the shop's own card").expect("this file system has attributes");
    set(&card, "user.empty", b"").expect("an attribute");
    set(&card, ACCESS, &private()).expect("this file system has access lists");
    let before = mode(&card);
    for name in ["/A", "/B"] {
        folder.run(&["mkdir", "card", name]).done();
        assert_eq!(get(&card, "user.note").as_deref(), Some(&b"the shop's own card"[..]));
        assert_eq!(get(&card, "user.empty").as_deref(), Some(&b""[..]));
        assert_eq!((get(&card, ACCESS), mode(&card)), (Some(private()), before));
    }
}

/// What the folder gives to every new file is not given to the image.
#[test]
fn never_widened() {
    let folder = Folder::new();
    let card = folder.write("card", &build::bench(Raw));
    set(&folder.path("."), DEFAULT, &generous()).expect("this file system has access lists");
    // The folder does give it, to a file that is made there.
    assert!(get(&folder.write("other", b""), ACCESS).is_some());
    for bits in [0o600, 0o640, 0o644, 0o664] {
        fs::set_permissions(&card, Permissions::from_mode(bits)).expect("permissions");
        folder.run(&["mkdir", "card", &format!("/M{bits}")]).done();
        assert_eq!((get(&card, ACCESS), mode(&card)), (None, bits));
    }
    set(&card, ACCESS, &private()).expect("an access list");
    folder.run(&["mkdir", "card", "/L"]).done();
    assert_eq!(get(&card, ACCESS), Some(private()));
}

/// Where they cannot be kept, the image stays as it is.
#[test]
fn refused() {
    let folder = Folder::new();
    let image = build::bench(Raw);
    let card = folder.write("card", &image);
    folder.run_failing("attribute", &["mkdir", "card", "/A"]).done();
    folder.write("card", &image);
    for (name, value) in [("user.note", b"mine".to_vec()), (ACCESS, private())] {
        set(&card, name, &value).expect("this file system has attributes");
        let inode = fs::metadata(&card).expect("there").ino();
        let given = folder.run_failing("attribute", &["mkdir", "card", "/A"]);
        given.failed(3, "cannot keep its attribute ");
        assert_eq!((folder.read("card"), fs::metadata(&card).expect("there").ino()), (image.clone(), inode));
        assert_eq!(get(&card, name), Some(value));
    }
    folder.run(&["mkdir", "card", "/A"]).done();
    assert_eq!(folder.names(), [".shim.so", "card"]);
}

/// The group's bits never go to another group. Only root can give the image to a group that it is not in.
#[test]
fn group_kept_or_refused() {
    let folder = Folder::new();
    let card = folder.write("card", &build::bench(Raw));
    if chown(&card, Some(1234), Some(5678)).is_err() {
        return println!("not tried: this user cannot give files away");
    }
    fs::set_permissions(&card, Permissions::from_mode(0o660)).expect("permissions");
    folder.run(&["mkdir", "card", "/A"]).done();
    let owner = || (fs::metadata(&card).expect("there").uid(), fs::metadata(&card).expect("there").gid());
    assert_eq!((owner(), mode(&card)), ((1234, 5678), 0o660));
    let given = folder.run_failing("owner", &["mkdir", "card", "/B"]);
    given.failed(3, "its group cannot be kept");
    assert_eq!((owner(), mode(&card)), ((1234, 5678), 0o660));
    // As the image's owner, in a group of its own.
    chown(folder.path("."), Some(1234), Some(1234)).expect("given away");
    let mut command = folder.command(&[b"mkdir", b"card", b"/B"]);
    match command.uid(1234).gid(1234).output() {
        Ok(output) => Outcome::of(output).failed(3, "its group cannot be kept"),
        Err(error) => println!("not tried: {error}"),
    }
    assert_eq!((owner(), mode(&card)), ((1234, 5678), 0o660));
}
