//! The listing.

use ps2card_sys::ps2card_list;

use crate::format::Number;

/// What the buffer holds before the call; no byte of a listing.
const BLANK: u8 = 0xEE;

/// Guard bytes on each side of the buffer.
const GUARD: usize = 16;

/// As many bytes of the listing, with times so many minutes ahead of Japan's, as a buffer of `room` bytes takes, and the
/// whole listing's length. Panics where a byte outside the text's place changes.
pub fn list(format: impl Into<Number>, image: &[u8], minutes: i32, room: usize) -> (Vec<u8>, usize) {
    let mut buffer = vec![BLANK; room + 2 * GUARD];
    let (number, out) = (format.into().0, buffer[GUARD..].as_mut_ptr());
    // SAFETY: pointers and lengths are those of slices that live until the call is over and do not overlap.
    let length = unsafe { ps2card_list(number, image.as_ptr(), image.len(), minutes, out, room) };
    let end = GUARD + length.min(room);
    assert!(buffer[..GUARD].iter().chain(&buffer[end..]).all(|&byte| byte == BLANK), "a byte outside the text changed");
    (buffer[GUARD..end].to_vec(), length)
}

/// The whole listing in Japan's time.
pub fn whole(format: impl Into<Number>, image: &[u8]) -> String {
    whole_at(format, image, 0)
}

/// The whole listing so many minutes ahead of it.
pub fn whole_at(format: impl Into<Number>, image: &[u8], minutes: i32) -> String {
    let format = format.into();
    let length = list(format, image, minutes, 0).1;
    let (text, again) = list(format, image, minutes, length + 7);
    assert_eq!(again, length);
    String::from_utf8(text).expect("a listing is ASCII")
}
