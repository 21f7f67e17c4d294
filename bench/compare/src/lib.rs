//! The proved library, called through its C interface and answered in the reader's types.
//!
//! Each call's outputs start as values that show every write, and a call panics where an output changes that must
//! stay as it was.

pub mod answer;
pub mod cards;
pub mod change;
pub mod checks;
pub mod clock;
pub mod convert;
pub mod format;
pub mod in_place;
mod lent;
pub mod listing;
pub mod lookup;
pub mod table;
pub mod works;

use answer::{verdict, Broken, NO_MENDED, NO_PAGE};
use format::Number;
use ps2card_sys::ps2card_check;
use reader::{Counts, Refusal};

pub use change::{create, delete, make_dir, remove_dir, replace};
pub use convert::{to_plain, to_raw};
pub use lookup::{find, find_mended, read, read_mended, step, step_mended};

/// The refusals of the check.
const REFUSALS: [u32; 7] = [1, 2, 3, 4, 5, 6, 7];

/// What the check may write. It starts as values no card can give, so that every write shows.
#[derive(Clone, Copy, Debug, PartialEq, Eq)]
struct Outputs {
    page: usize,
    clusters: u32,
    free: usize,
    reached: usize,
    orphaned: usize,
    held: usize,
    mended: usize,
}

const UNTOUCHED: Outputs = Outputs {
    page: NO_PAGE,
    clusters: u32::MAX - 2,
    free: usize::MAX - 3,
    reached: usize::MAX - 4,
    orphaned: usize::MAX - 5,
    held: usize::MAX - 6,
    mended: NO_MENDED,
};

impl Outputs {
    /// The answer for a returned number, if every output that must stay has stayed.
    fn answer(self, number: u32) -> Result<Result<Counts, Refusal>, Broken> {
        let Outputs { page, clusters, free, reached, orphaned, held, mended } = self;
        let counts_stay = Outputs { page: NO_PAGE, ..self } == UNTOUCHED;
        let accepted = verdict(number, &REFUSALS, page, counts_stay)?;
        Ok(accepted.map(|()| Counts { clusters: clusters as usize, free, reached, orphaned, held, mended }))
    }
}

/// The check.
pub fn check(format: impl Into<Number>, image: &[u8]) -> Result<Counts, Refusal> {
    let mut out = UNTOUCHED;
    // SAFETY: pointer and length are those of one slice, which the library only reads; each output
    // is a separate place that lives until the call is over.
    let number = unsafe {
        ps2card_check(
            format.into().0,
            image.as_ptr(),
            image.len(),
            &mut out.page,
            &mut out.clusters,
            &mut out.free,
            &mut out.reached,
            &mut out.orphaned,
            &mut out.held,
            &mut out.mended,
        )
    };
    out.answer(number).unwrap_or_else(|broken| panic!("{broken}: {out:?}"))
}

#[cfg(test)]
mod tests {
    use super::*;

    const COUNTS: Outputs =
        Outputs { page: NO_PAGE, clusters: 56, free: 29, reached: 1, orphaned: 3, held: 5, mended: 7 };

    #[test]
    fn answers() {
        let counts = Counts { clusters: 56, free: 29, reached: 1, orphaned: 3, held: 5, mended: 7 };
        assert_eq!(COUNTS.answer(0), Ok(Ok(counts)));
        assert_eq!(Outputs { page: 9, ..UNTOUCHED }.answer(2), Ok(Err(Refusal::unreadable(9))));
        for number in [1, 3, 4, 5, 6, 7] {
            assert_eq!(UNTOUCHED.answer(number), Ok(Err(Refusal::number(number as u8))));
        }
    }

    /// Every single output that changed where it must stay is noticed.
    #[test]
    fn broken_promises() {
        let touched = [
            Outputs { clusters: 56, ..UNTOUCHED },
            Outputs { free: 0, ..UNTOUCHED },
            Outputs { reached: 0, ..UNTOUCHED },
            Outputs { orphaned: 0, ..UNTOUCHED },
            Outputs { held: 0, ..UNTOUCHED },
            Outputs { mended: 0, ..UNTOUCHED },
        ];
        for number in REFUSALS {
            assert!(touched.iter().all(|out| out.answer(number).is_err()), "{number}");
            assert_eq!(Outputs { page: 0, ..UNTOUCHED }.answer(number).is_err(), number != 2, "{number}");
        }
        assert!(Outputs { page: 0, ..COUNTS }.answer(0).is_err());
        assert!(UNTOUCHED.answer(8).is_err() && UNTOUCHED.answer(u32::MAX).is_err());
    }
}
