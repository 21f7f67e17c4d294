//! PlayStation 2 memory card images, raw and plain, read and changed by the proved library.
//!
//! A [`Card`] is an image of any bytes, owned or borrowed, in a [`Format`] that the caller says: each call checks it
//! first, so none has to be checked before. A call answers, or tells a [`Refusal`] and leaves the image and every buffer
//! as they were. How many chunks with a wrong bit were mended for an answer is told by [`Counts`] and [`Mended`].
//!
//! ```
//! use ps2card::{Card, Format, Refusal, Stamp};
//!
//! # fn main() -> Result<(), Refusal> {
//! let time = Stamp::parse("2000-02-29T12:34:56").expect("a time");
//! let mut card = Card::fresh(Format::Raw, 56, &time)?;
//! card.make_dir(b"/SAVE", &time)?;
//! card.create(b"/SAVE/A", &time, b"the bytes of a save")?;
//!
//! assert_eq!(card.bytes(b"/SAVE/A", 4, 5)?, b"bytes");
//! assert_eq!(card.delete(b"/SAVE/B"), Err(Refusal::Absent));
//! for line in card.tree()? {
//!     println!("{:?} {} {}", line.kind, line.length, line.path.escape_ascii());
//! }
//! # Ok(())
//! # }
//! ```
//!
//! # Threads and stack
//! The library keeps no state and takes no memory: calls on different images may run at once. A call needs up to
//! [`STACK`] bytes of stack, whatever the card: a thread of Rust's usual 2 MiB has it, one made with a smaller
//! [`stack_size`](std::thread::Builder::stack_size) needs as much and what its own code takes.
#![deny(missing_docs, unsafe_op_in_unsafe_fn)]

mod card;
mod change;
mod convert;
mod entry;
mod error;
mod format;
mod fresh;
pub mod image_file;
mod listing;
mod local_time;
mod look;
mod mended;
mod refusal;
mod stamp;

/// Bytes of stack that a call of the library takes at most, by the bounds that `include/ps2card.h` gives.
pub const STACK: usize = 1_200 * 1024;

pub use card::{Card, CardMut, CardRef, Counts};
pub use entry::{Entry, Kind, MODE_BITS};
pub use format::{allowed_clusters, Format, MOST_BYTES, MOST_CLUSTERS, STANDARD_CLUSTERS};
pub use listing::Line;
pub use local_time::LocalTime;
pub use look::MINUTES;
pub use mended::Mended;
pub use refusal::Refusal;
pub use stamp::Stamp;
