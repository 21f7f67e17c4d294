//! The name rule, and the set of names of one directory.

use std::collections::HashSet;
use std::hash::{Hash, Hasher};

use crate::pages::{array, Data};

/// Bytes of the name's field.
const FIELD: usize = 32;

/// The live names of one directory so far.
pub type Names = HashSet<Name>;

/// An entry's name as words, with zeros from its end on.
#[derive(Clone, Copy, Debug, PartialEq, Eq)]
pub struct Name([u64; FIELD / 8]);

impl Name {
    /// The name of an entry after the first two, if it keeps the rule: up to the first zero printable bytes, at least
    /// one, without `*`, `/` and `?`, and not the dots.
    #[inline]
    pub fn of(data: &Data) -> Option<Name> {
        let field: &[u8; FIELD] = array(data, 0x40);
        let end = field.iter().position(|&byte| byte == 0)?;
        let name = &field[..end];
        let is_allowed = |byte: &u8| matches!(byte, 0x20..=0x7E) && !matches!(byte, b'*' | b'/' | b'?');
        if name.is_empty() || name == b"." || name == b".." || !name.iter().all(is_allowed) {
            return None;
        }
        let (words, _) = field.as_chunks::<8>();
        Some(Name(std::array::from_fn(|place| {
            let kept = end.saturating_sub(8 * place).min(8);
            let mask = if kept == 8 { !0 } else { (1 << (8 * kept)) - 1 };
            u64::from_le_bytes(words[place]) & mask
        })))
    }
}

/// Only the words that the name has: short names are quick.
impl Hash for Name {
    #[inline]
    fn hash<H: Hasher>(&self, state: &mut H) {
        self.0.iter().take_while(|&&word| word != 0).for_each(|&word| state.write_u64(word));
    }
}
