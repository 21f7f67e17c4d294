//! Find, directory step and file read; each has a twin, as in the reader, that tells besides how many chunks were
//! mended.

use ps2card_sys::{ps2card_find, ps2card_read, ps2card_step};
use reader::{Answer, Entry, Refusal};

use crate::answer::{verdict, Broken, NO_MENDED, NO_PAGE};
use crate::format::Number;

/// The refusals of find and step.
const REFUSALS: [u32; 10] = [1, 2, 3, 4, 5, 6, 7, 8, 9, 10];
/// Those of a read: an offset beyond the file too.
const READ_REFUSALS: [u32; 11] = [1, 2, 3, 4, 5, 6, 7, 8, 9, 10, 15];

/// What stands in the places of an entry's fields before a call.
const NO_ENTRY: Entry = Entry {
    mode: 0x5A01,
    length: 0x5A5A_0002,
    created: [0xC3; 8],
    first_cluster: 0x5A5A_0003,
    dir_entry: 0x5A5A_0004,
    modified: [0xC4; 8],
    attribute: 0x5A5A_0005,
    name_field: [0xC5; 32],
};

#[derive(Clone, Debug, PartialEq, Eq)]
struct FindOutputs {
    page: usize,
    entry: Entry,
    mended: usize,
}

impl FindOutputs {
    const UNTOUCHED: FindOutputs = FindOutputs { page: NO_PAGE, entry: NO_ENTRY, mended: NO_MENDED };

    fn answer(self, number: u32) -> Result<Result<Answer<Entry>, Refusal>, Broken> {
        let all_stay = (&self.entry, self.mended) == (&NO_ENTRY, NO_MENDED);
        let accepted = verdict(number, &REFUSALS, self.page, all_stay)?;
        Ok(accepted.map(|()| Answer { value: self.entry, mended: self.mended }))
    }
}

/// The entry at a path.
pub fn find(format: impl Into<Number>, image: &[u8], path: &[u8]) -> Result<Entry, Refusal> {
    find_mended(format, image, path).map(|answer| answer.value)
}

/// `find` with the count.
pub fn find_mended(format: impl Into<Number>, image: &[u8], path: &[u8]) -> Result<Answer<Entry>, Refusal> {
    let mut out = FindOutputs::UNTOUCHED;
    let entry = &mut out.entry;
    // SAFETY: each pointer with a length is one slice, which the library only reads; each output is a
    // separate place that lives until the call is over.
    let number = unsafe {
        ps2card_find(
            format.into().0,
            image.as_ptr(),
            image.len(),
            path.as_ptr(),
            path.len(),
            &mut out.page,
            &mut entry.mode,
            &mut entry.length,
            entry.created.as_mut_ptr(),
            &mut entry.first_cluster,
            &mut entry.dir_entry,
            entry.modified.as_mut_ptr(),
            &mut entry.attribute,
            entry.name_field.as_mut_ptr(),
            &mut out.mended,
        )
    };
    out.clone().answer(number).unwrap_or_else(|broken| panic!("find, {broken}: {out:?}"))
}

#[derive(Clone, Debug, PartialEq, Eq)]
struct StepOutputs {
    page: usize,
    found: u32,
    at: u32,
    entry: Entry,
    mended: usize,
}

/// A slot with its entry, or the end of the directory.
pub type Next = Option<(usize, Entry)>;

impl StepOutputs {
    const UNTOUCHED: StepOutputs =
        StepOutputs { page: NO_PAGE, found: 0x5A5A_0006, at: 0x5A5A_0007, entry: NO_ENTRY, mended: NO_MENDED };

    /// The end writes that nothing was found and the count, and no more.
    fn answer(self, number: u32) -> Result<Result<Answer<Next>, Refusal>, Broken> {
        let entry_stays = (self.at, &self.entry) == (Self::UNTOUCHED.at, &NO_ENTRY);
        let others_stay = (self.found, self.mended) == (Self::UNTOUCHED.found, NO_MENDED);
        let mended = self.mended;
        match (verdict(number, &REFUSALS, self.page, entry_stays && others_stay)?, self.found) {
            (Err(refusal), _) => Ok(Err(refusal)),
            (Ok(()), 1) => Ok(Ok(Answer { value: Some((self.at as usize, self.entry)), mended })),
            (Ok(()), 0) if entry_stays => Ok(Ok(Answer { value: None, mended })),
            (Ok(()), 0) => Err("the end changed the slot or a field".into()),
            (Ok(()), found) => Err(format!("found is {found}")),
        }
    }
}

/// The first live entry of a directory from a slot on.
pub fn step(format: impl Into<Number>, image: &[u8], path: &[u8], slot: u32) -> Result<Next, Refusal> {
    step_mended(format, image, path, slot).map(|answer| answer.value)
}

/// `step` with the count.
pub fn step_mended(format: impl Into<Number>, image: &[u8], path: &[u8], slot: u32) -> Result<Answer<Next>, Refusal> {
    let mut out = StepOutputs::UNTOUCHED;
    let entry = &mut out.entry;
    // SAFETY: as in `find`.
    let number = unsafe {
        ps2card_step(
            format.into().0,
            image.as_ptr(),
            image.len(),
            path.as_ptr(),
            path.len(),
            slot,
            &mut out.page,
            &mut out.found,
            &mut out.at,
            &mut entry.mode,
            &mut entry.length,
            entry.created.as_mut_ptr(),
            &mut entry.first_cluster,
            &mut entry.dir_entry,
            entry.modified.as_mut_ptr(),
            &mut entry.attribute,
            entry.name_field.as_mut_ptr(),
            &mut out.mended,
        )
    };
    out.clone().answer(number).unwrap_or_else(|broken| panic!("step, {broken}: {out:?}"))
}

/// Bytes on each side of the lent buffer, which must stay too.
const GUARD: usize = 16;

#[derive(Clone, Debug, PartialEq, Eq)]
struct ReadOutputs {
    page: usize,
    count: usize,
    mended: usize,
    /// The buffer between its guards.
    lent: Vec<u8>,
}

impl ReadOutputs {
    fn untouched(buffer: &[u8]) -> ReadOutputs {
        let lent = [&[0xB7; GUARD], buffer, &[0xB8; GUARD]].concat();
        ReadOutputs { page: NO_PAGE, count: usize::MAX - 6, mended: NO_MENDED, lent }
    }

    /// Of the lent bytes only as many as the count says may have changed.
    fn answer(&self, number: u32, before: &ReadOutputs) -> Result<Result<Answer<usize>, Refusal>, Broken> {
        let all_stay = (self.count, self.mended, &self.lent) == (before.count, NO_MENDED, &before.lent);
        let accepted = verdict(number, &READ_REFUSALS, self.page, all_stay)?;
        if accepted.is_ok() {
            if self.count > before.lent.len() - 2 * GUARD {
                return Err(format!("{} bytes are more than the buffer has", self.count));
            }
            let end = GUARD + self.count;
            if (&self.lent[..GUARD], &self.lent[end..]) != (&before.lent[..GUARD], &before.lent[end..]) {
                return Err(format!("a byte changed beside the {} told", self.count));
            }
        }
        Ok(accepted.map(|()| Answer { value: self.count, mended: self.mended }))
    }
}

/// Copies a file's bytes from an offset on into the buffer, and tells how many.
pub fn read(
    format: impl Into<Number>,
    image: &[u8],
    path: &[u8],
    offset: usize,
    buffer: &mut [u8],
) -> Result<usize, Refusal> {
    read_mended(format, image, path, offset, buffer).map(|answer| answer.value)
}

/// `read` with the count.
pub fn read_mended(
    format: impl Into<Number>,
    image: &[u8],
    path: &[u8],
    offset: usize,
    buffer: &mut [u8],
) -> Result<Answer<usize>, Refusal> {
    let before = ReadOutputs::untouched(buffer);
    let mut out = before.clone();
    let lent = &mut out.lent[GUARD..][..buffer.len()];
    // SAFETY: as in `find`; the buffer is a slice of its own, which the library may write.
    let number = unsafe {
        ps2card_read(
            format.into().0,
            image.as_ptr(),
            image.len(),
            path.as_ptr(),
            path.len(),
            offset,
            lent.as_mut_ptr(),
            lent.len(),
            &mut out.page,
            &mut out.count,
            &mut out.mended,
        )
    };
    let answer = out.answer(number, &before).unwrap_or_else(|broken| panic!("read, {broken}"));
    buffer.copy_from_slice(&out.lent[GUARD..][..buffer.len()]);
    answer
}

#[cfg(test)]
mod tests {
    use super::*;

    /// For each field an entry that differs from the untouched one in that field alone.
    fn touched() -> [Entry; 8] {
        let none = || NO_ENTRY;
        let (mut created, mut modified, mut name_field) = (none().created, none().modified, none().name_field);
        created[7] = 0;
        modified[0] = 0;
        name_field[31] = 0;
        [
            Entry { mode: 0, ..none() },
            Entry { length: 0, ..none() },
            Entry { created, ..none() },
            Entry { first_cluster: 0, ..none() },
            Entry { dir_entry: 0, ..none() },
            Entry { modified, ..none() },
            Entry { attribute: 0, ..none() },
            Entry { name_field, ..none() },
        ]
    }

    #[test]
    fn finds() {
        let refused = FindOutputs::UNTOUCHED;
        for entry in touched() {
            let out = FindOutputs { entry: entry.clone(), ..FindOutputs::UNTOUCHED };
            assert!(REFUSALS.iter().all(|&number| out.clone().answer(number).is_err()));
            let told = FindOutputs { mended: 3, ..out };
            assert_eq!(told.answer(0), Ok(Ok(Answer { value: entry, mended: 3 })));
        }
        let told = FindOutputs { mended: 0, ..FindOutputs::UNTOUCHED };
        assert!(REFUSALS.iter().all(|&number| told.clone().answer(number).is_err()));
        assert_eq!(refused.clone().answer(9), Ok(Err(Refusal::number(9))));
        assert!(refused.answer(15).is_err());
    }

    #[test]
    fn steps() {
        let untouched = StepOutputs::UNTOUCHED;
        assert_eq!(untouched.clone().answer(10), Ok(Err(Refusal::number(10))));
        assert!(untouched.clone().answer(0).is_err() && untouched.clone().answer(15).is_err());
        let end = StepOutputs { found: 0, mended: 3, ..untouched.clone() };
        assert_eq!(end.clone().answer(0), Ok(Ok(Answer { value: None, mended: 3 })));
        assert!(StepOutputs { found: 0, ..untouched.clone() }.answer(9).is_err());
        assert!(StepOutputs { mended: 0, ..untouched.clone() }.answer(9).is_err());
        assert!(StepOutputs { at: 7, ..end.clone() }.answer(0).is_err());
        assert!(StepOutputs { at: 7, ..untouched }.answer(9).is_err());
        for entry in touched() {
            let out = StepOutputs { entry: entry.clone(), ..end.clone() };
            assert!(out.clone().answer(0).is_err());
            let found = StepOutputs { found: 1, at: 7, ..out };
            assert_eq!(found.answer(0), Ok(Ok(Answer { value: Some((7, entry)), mended: 3 })));
        }
    }

    #[test]
    fn reads() {
        let before = ReadOutputs::untouched(&[1, 2, 3]);
        let copied = |count: usize, at: usize| {
            let mut out = ReadOutputs { count, mended: 3, ..before.clone() };
            out.lent[at] = 0;
            out.answer(0, &before)
        };
        assert_eq!(copied(2, GUARD + 1), Ok(Ok(Answer { value: 2, mended: 3 })));
        assert_eq!(copied(3, GUARD + 2), Ok(Ok(Answer { value: 3, mended: 3 })));
        assert!(copied(2, GUARD + 2).is_err() && copied(4, GUARD).is_err());
        assert!(copied(3, GUARD - 1).is_err() && copied(3, GUARD + 3).is_err());
        assert!(before.answer(0, &before).is_err());
        assert_eq!(before.answer(15, &before), Ok(Err(Refusal::number(15))));
        assert!(ReadOutputs { count: 0, ..before.clone() }.answer(15, &before).is_err());
        assert!(ReadOutputs { mended: 0, ..before.clone() }.answer(15, &before).is_err());
        let mut touched = before.clone();
        touched.lent[GUARD] = 0;
        assert!(touched.answer(15, &before).is_err() && before.answer(11, &before).is_err());
    }
}
