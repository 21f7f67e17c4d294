//! The conversions on both sides.

use reader::{Format, Refusal};

use super::lookups::unread;
use super::Tally;

/// Comparisons of both conversions, and how often each answer was met.
#[derive(Clone, Debug, Default)]
pub struct Converts {
    pub tally: Tally,
}

/// How long an output has to be for an image, by whole pages.
pub fn needed(from: Format, length: usize) -> usize {
    length / from.page_bytes() * from.other().page_bytes()
}

impl Converts {
    /// Converts on both sides into outputs of so many bytes, with the same bytes before: the same answer, and the same
    /// output afterwards, which is returned too.
    pub fn with_room(
        &mut self,
        from: Format,
        image: &[u8],
        room: usize,
        what: impl Fn() -> String,
    ) -> (Result<(), Refusal>, Vec<u8>) {
        let mut output: Vec<u8> = (0..room).map(unread).collect();
        let mut readers_output = output.clone();
        let (ours, readers) = match from {
            Format::Raw => (compare::to_plain(image, &mut output), reader::to_plain(image, &mut readers_output)),
            Format::Plain => (compare::to_raw(image, &mut output), reader::to_raw(image, &mut readers_output)),
        };
        let about = || format!("{from:?} image, {} bytes into {room}, {}", image.len(), what());
        assert_eq!(ours, readers, "library left, reader right: {}", about());
        assert!(output == readers_output, "the outputs differ: {}", about());
        self.tally.count(&ours);
        (ours, output)
    }

    /// The same into an output of the right length; what was written, if the conversion is accepted.
    pub fn whole(&mut self, from: Format, image: &[u8], what: impl Fn() -> String) -> Result<Vec<u8>, Refusal> {
        let (answer, output) = self.with_room(from, image, needed(from, image.len()), what);
        answer.map(|()| output)
    }
}
