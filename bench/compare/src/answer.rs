//! What the number that a call returns says, and the promise that a refusal writes nothing but the page of 2.

use reader::Refusal;

/// A broken promise, in words.
pub type Broken = String;

/// What stands in the page's number before a call: no card has such a page.
pub const NO_PAGE: usize = usize::MAX - 1;
/// What stands in the count of mended chunks before a call: no card has so many.
pub const NO_MENDED: usize = usize::MAX - 7;

/// Acceptance, or the refusal with the returned number: one that the call may give, and with every output kept
/// that must be. `others_stay` says that all outputs but the page are as they were.
pub fn verdict(number: u32, may_give: &[u32], page: usize, others_stay: bool) -> Result<Result<(), Refusal>, Broken> {
    let page_stays = page == NO_PAGE;
    match number {
        0 if !page_stays => Err(format!("acceptance changed the page to {page}")),
        0 => Ok(Ok(())),
        _ if !may_give.contains(&number) => Err(format!("the call has no refusal {number}")),
        _ if !others_stay => Err(format!("refusal {number} changed an output")),
        2 => Ok(Err(Refusal::unreadable(page))),
        _ if !page_stays => Err(format!("refusal {number} changed the page to {page}")),
        _ => Ok(Err(Refusal::number(number as u8))),
    }
}

#[cfg(test)]
mod tests {
    use super::*;

    const SOME: [u32; 3] = [2, 7, 15];

    #[test]
    fn verdicts() {
        assert_eq!(verdict(0, &SOME, NO_PAGE, false), Ok(Ok(())));
        assert_eq!(verdict(2, &SOME, 9, true), Ok(Err(Refusal::unreadable(9))));
        assert_eq!(verdict(15, &SOME, NO_PAGE, true), Ok(Err(Refusal::number(15))));
    }

    #[test]
    fn broken_promises() {
        assert!(verdict(0, &SOME, 0, true).is_err());
        for number in SOME {
            assert!(verdict(number, &SOME, NO_PAGE, false).is_err(), "{number}");
            assert_eq!(verdict(number, &SOME, 0, true).is_err(), number != 2, "{number}");
        }
        for number in [1, 3, 8, 16, u32::MAX] {
            assert!(verdict(number, &SOME, NO_PAGE, true).is_err(), "{number}");
        }
    }
}
