//! Names of entries.

/// Bytes of a name field.
pub const FIELD: usize = 32;

/// The bytes before the first zero of a name field; a field without a zero has no name.
pub fn in_field(field: &[u8]) -> Option<&[u8]> {
    field.iter().position(|&byte| byte == 0).map(|end| &field[..end])
}

/// The name rule: 1 to 31 bytes of 0x20 to 0x7E without `*`, `/`, `?`, neither `.` nor `..`.
pub fn allowed(name: &[u8]) -> bool {
    let plain = |byte: &u8| (0x20..=0x7E).contains(byte) && !b"*/?".contains(byte);
    (1..FIELD).contains(&name.len()) && name.iter().all(plain) && name != b"." && name != b".."
}
