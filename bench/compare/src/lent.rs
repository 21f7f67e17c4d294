//! A buffer that the library may write, as a copy between guard bytes; the caller's becomes what the call made of it.

use reader::Refusal;

use crate::answer::{verdict, Broken, NO_PAGE};

/// Bytes on each side of the lent ones, which must stay. They are odd in number, so the copy lies at an odd address.
const GUARD: usize = 17;
const GUARDS: [[u8; GUARD]; 2] = [[0xB7; GUARD], [0xB8; GUARD]];

#[derive(Clone, Debug)]
struct Outputs {
    page: usize,
    /// The copy between its guards.
    lent: Vec<u8>,
}

impl Outputs {
    fn untouched(bytes: &[u8]) -> Outputs {
        Outputs { page: NO_PAGE, lent: [&GUARDS[0], bytes, &GUARDS[1]].concat() }
    }

    fn bytes(&mut self) -> &mut [u8] {
        let end = self.lent.len() - GUARD;
        &mut self.lent[GUARD..end]
    }

    /// The guards stay always, every lent byte on a refusal.
    fn answer(&mut self, number: u32, may_give: &[u32], before: &[u8]) -> Result<Result<(), Refusal>, Broken> {
        if !self.lent.starts_with(&GUARDS[0]) || !self.lent.ends_with(&GUARDS[1]) {
            return Err("a byte beside the lent ones changed".into());
        }
        let bytes_stay = number == 0 || self.bytes() == before;
        verdict(number, may_give, self.page, bytes_stay)
    }
}

/// Lets `call` work on a copy of the bytes, given as pointer, length and the page's place, and takes over the copy.
pub fn lend(
    bytes: &mut [u8],
    may_give: &[u32],
    call: impl FnOnce(*mut u8, usize, *mut usize) -> u32,
) -> Result<(), Refusal> {
    let mut out = Outputs::untouched(bytes);
    let number = call(out.bytes().as_mut_ptr(), bytes.len(), &mut out.page);
    let answer = out.answer(number, may_give, bytes).unwrap_or_else(|broken| panic!("{broken}"));
    if answer.is_ok() {
        bytes.copy_from_slice(out.bytes());
    }
    answer
}

#[cfg(test)]
mod tests {
    use super::*;

    const BYTES: [u8; 3] = [1, 2, 3];
    const SOME: [u32; 3] = [2, 9, 12];

    /// The answer to a number where one lent byte was changed, or none.
    fn answer(number: u32, changed: Option<usize>) -> Result<Result<(), Refusal>, Broken> {
        let mut out = Outputs::untouched(&BYTES);
        changed.into_iter().for_each(|at| out.lent[at] ^= 1);
        out.answer(number, &SOME, &BYTES)
    }

    #[test]
    fn answers() {
        assert_eq!(answer(0, None), Ok(Ok(())));
        assert_eq!(answer(0, Some(GUARD + 2)), Ok(Ok(())));
        assert_eq!(answer(12, None), Ok(Err(Refusal::number(12))));
    }

    #[test]
    fn broken_promises() {
        for place in GUARD..GUARD + 3 {
            assert!(SOME.iter().all(|&number| answer(number, Some(place)).is_err()));
        }
        for place in [0, GUARD - 1, GUARD + 3, 2 * GUARD + 2] {
            assert!([0, 9, 12].iter().all(|&number| answer(number, Some(place)).is_err()));
        }
        assert!(answer(11, None).is_err() && answer(13, None).is_err() && answer(15, None).is_err());
    }

    #[test]
    fn lent_copies() {
        let mut bytes = BYTES;
        // SAFETY: each call writes one byte of the three that are lent.
        let set = |at: *mut u8| unsafe { *at.add(1) = 9 };
        let kept = lend(&mut bytes, &SOME, |_, length, _| 9 * u32::from(length == 3));
        assert_eq!((kept, bytes), (Err(Refusal::number(9)), BYTES));
        let changed = lend(&mut bytes, &SOME, |at, _, _| {
            set(at);
            0
        });
        assert_eq!((changed, bytes), (Ok(()), [1, 9, 3]));
    }
}
