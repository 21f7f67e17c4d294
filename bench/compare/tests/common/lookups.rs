//! Find, step and read on both sides, each with the count of what was mended.

use compare::lookup::Next;
use reader::{Answer, Entry, Format, Refusal};

use super::Tally;

/// Comparisons of the three calls in one format, and how often each answer was met.
#[derive(Clone, Debug)]
pub struct Lookups {
    pub format: Format,
    pub finds: Tally,
    pub steps: Tally,
    pub reads: Tally,
    /// Steps that came to a directory's end.
    pub ends: usize,
}

impl Lookups {
    pub fn new(format: Format) -> Lookups {
        let [finds, steps, reads] = Default::default();
        Lookups { format, finds, steps, reads, ends: 0 }
    }

    pub fn find(&mut self, image: &[u8], path: &[u8], what: impl Fn() -> String) -> Result<Entry, Refusal> {
        self.find_mended(image, path, what).map(|answer| answer.value)
    }

    pub fn find_mended(
        &mut self,
        image: &[u8],
        path: &[u8],
        what: impl Fn() -> String,
    ) -> Result<Answer<Entry>, Refusal> {
        let ours = compare::find_mended(self.format, image, path);
        let readers = reader::find_mended(self.format, image, path);
        let about = || format!("{:?}, find {}, {}", self.format, path.escape_ascii(), what());
        assert_eq!(ours, readers, "library left, reader right: {}", about());
        self.finds.count(&ours);
        ours
    }

    pub fn step(&mut self, image: &[u8], path: &[u8], slot: u32, what: impl Fn() -> String) -> Result<Next, Refusal> {
        self.step_mended(image, path, slot, what).map(|answer| answer.value)
    }

    pub fn step_mended(
        &mut self,
        image: &[u8],
        path: &[u8],
        slot: u32,
        what: impl Fn() -> String,
    ) -> Result<Answer<Next>, Refusal> {
        let ours = compare::step_mended(self.format, image, path, slot);
        let readers = reader::step_mended(self.format, image, path, slot as usize);
        let about = || format!("{:?}, step {} {slot}, {}", self.format, path.escape_ascii(), what());
        assert_eq!(ours, readers, "library left, reader right: {}", about());
        self.steps.count(&ours);
        self.ends += usize::from(ours.as_ref().is_ok_and(|answer| answer.value.is_none()));
        ours
    }

    /// Both sides read into a buffer with the same bytes before; the buffer afterwards is returned too.
    pub fn read(
        &mut self,
        image: &[u8],
        path: &[u8],
        offset: usize,
        size: usize,
        what: impl Fn() -> String,
    ) -> (Result<usize, Refusal>, Vec<u8>) {
        let (answer, buffer) = self.read_mended(image, path, offset, size, what);
        (answer.map(|answer| answer.value), buffer)
    }

    pub fn read_mended(
        &mut self,
        image: &[u8],
        path: &[u8],
        offset: usize,
        size: usize,
        what: impl Fn() -> String,
    ) -> (Result<Answer<usize>, Refusal>, Vec<u8>) {
        let mut buffer: Vec<u8> = (0..size).map(unread).collect();
        let mut readers_buffer = buffer.clone();
        let ours = compare::read_mended(self.format, image, path, offset, &mut buffer);
        let readers = reader::read_mended(self.format, image, path, offset, &mut readers_buffer);
        let about =
            || format!("{:?}, read {} from {offset}, {size} bytes, {}", self.format, path.escape_ascii(), what());
        assert_eq!(ours, readers, "library left, reader right: {}", about());
        assert!(buffer == readers_buffer, "the buffers differ: {}", about());
        self.reads.count(&ours);
        (ours, buffer)
    }

    /// All three calls refuse.
    pub fn refused(&mut self, image: &[u8], path: &[u8], refusal: Refusal, what: impl Fn() -> String) {
        assert_eq!(self.find(image, path, &what).err(), Some(refusal), "find {}, {}", path.escape_ascii(), what());
        assert_eq!(self.step(image, path, 2, &what).err(), Some(refusal), "step {}, {}", path.escape_ascii(), what());
        let read = self.read(image, path, 0, 600, &what).0;
        assert_eq!(read.err(), Some(refusal), "read {}, {}", path.escape_ascii(), what());
    }
}

/// The byte that stands in a buffer before a call.
pub fn unread(at: usize) -> u8 {
    (at * 37 + 11) as u8
}
