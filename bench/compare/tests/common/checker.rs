//! The ordinary checker beside library and reader: one answer from all three, and how often each was met.

use compare::checks::checked;
use reader::Format;

use super::{Answer, Tally};

/// How often each answer was met, and acceptance with something mended, held back and orphaned.
#[derive(Debug, Default)]
pub struct Met {
    pub answers: Tally,
    mended: usize,
    held: usize,
    orphaned: usize,
}

impl Met {
    /// All three sides must give the same answer, which is returned.
    pub fn same(&mut self, format: Format, image: &[u8], what: impl Fn() -> String) -> Answer {
        let checkers = checked(format, image);
        let answer = self.answers.same(format, image, &what);
        assert_eq!(checkers, answer, "checker left, library and reader right: {format:?}, {}", what());
        if let Ok(counts) = answer {
            self.mended += usize::from(counts.mended > 0);
            self.held += usize::from(counts.held > 0);
            self.orphaned += usize::from(counts.orphaned > 0);
        }
        answer
    }

    /// So often something was mended, held back and orphaned.
    pub fn counted(&self, least: [usize; 3]) {
        let seen = [self.mended, self.held, self.orphaned];
        println!("accepted with mended, held back and orphaned ones: {seen:?}");
        assert!(seen.iter().zip(least).all(|(&seen, least)| seen >= least), "{seen:?}, not {least:?}");
    }
}
