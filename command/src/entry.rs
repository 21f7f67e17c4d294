//! A directory entry as the library hands it out.

use crate::Stamp;

/// What an entry is.
#[derive(Clone, Copy, Debug, PartialEq, Eq)]
pub enum Kind {
    /// A file, with bytes.
    File,
    /// A directory, with entries.
    Directory,
}

/// The fields of an entry, corrected.
#[derive(Clone, Debug, Default, PartialEq, Eq)]
pub struct Entry {
    /// The mode bits, as the entry has them; [`MODE_BITS`] names some.
    pub mode: u16,
    /// A file's bytes, or a directory's entries, the first two and dead ones too.
    pub length: u32,
    /// When it was made.
    pub created: Stamp,
    /// Its first cluster, counted from the first allocatable one; 0xFFFFFFFF for an empty file.
    pub first: u32,
    /// The slot in the parent, in a directory's own first entry.
    pub dir_entry: u32,
    /// When it was last changed.
    pub modified: Stamp,
    /// The attribute word.
    pub attribute: u32,
    /// The name's field: the name, a zero, and whatever follows it.
    pub name_field: [u8; 32],
}

/// The mode bit of a directory. A checked entry that has it is no file.
const DIRECTORY: u16 = 0x20;
/// The mode bit that a change asks for.
const WRITE: u16 = 0x0002;

/// The bits of a mode that have a name, as `include/ps2card.h` explains them.
pub const MODE_BITS: [(u16, &str); 10] = [
    (0x8000, "exists"),
    (0x0010, "file"),
    (DIRECTORY, "directory"),
    (0x0001, "read"),
    (WRITE, "write"),
    (0x0004, "execute"),
    (0x0008, "protected"),
    (0x0800, "pocketstation"),
    (0x1000, "psx"),
    (0x2000, "hidden"),
];

impl Entry {
    /// Whether it is a file or a directory.
    pub fn kind(&self) -> Kind {
        if self.mode & DIRECTORY != 0 {
            Kind::Directory
        } else {
            Kind::File
        }
    }

    /// Whether its write bit, mode 0x0002, is clear. Then a file is not replaced or deleted, a directory not removed, and
    /// nothing directly inside a directory is made, replaced or removed: [`Refusal::Locked`](crate::Refusal::Locked).
    /// The entry of a directory is the one in its parent, that of the root its own first one, as
    /// [`Card::find`](crate::Card::find) answers them. Nothing farther up or down counts, and reading asks for no bit.
    ///
    /// ```
    /// use ps2card::{Card, Format, Refusal, Stamp};
    ///
    /// let mut card = Card::fresh(Format::Plain, 56, &Stamp::now())?;
    /// card.create(b"/note", &Stamp::now(), b"kept")?;
    /// assert!(!card.find(b"/note")?.is_locked());
    /// // Its entry is page 22 of this card and begins with the mode, low byte first.
    /// let mut image = card.into_image();
    /// image[512 * 22] &= !2;
    /// let mut card = Card::plain(image);
    /// assert!(card.find(b"/note")?.is_locked() && !card.find(b"/")?.is_locked());
    /// assert_eq!(card.replace(b"/note", &Stamp::now(), b"other"), Err(Refusal::Locked));
    /// assert_eq!(card.bytes(b"/note", 0, 100)?, b"kept");
    /// # Ok::<(), Refusal>(())
    /// ```
    pub fn is_locked(&self) -> bool {
        self.mode & WRITE == 0
    }

    /// The name: what stands before the field's first zero.
    pub fn name(&self) -> &[u8] {
        let end = self.name_field.iter().position(|&byte| byte == 0).unwrap_or(self.name_field.len());
        &self.name_field[..end]
    }
}
