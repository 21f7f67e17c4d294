//! The functions of `libps2card.a`, as `include/ps2card.h` declares and describes them. The package `ps2card` has the
//! safe way to them; these are for it and for tests that look at what a call leaves alone.
#![no_std]
#![deny(missing_docs)]

/// The archive that is linked, for tests that compile C against it.
pub const ARCHIVE: &str = env!("PS2CARD_ARCHIVE");

/// The number of the format with spare bytes.
pub const RAW: u32 = 0;
/// The number of the format without them.
pub const PLAIN: u32 = 1;

extern "C" {
    /// Checks a card and counts its clusters, and the chunks that were mended.
    pub fn ps2card_check(
        format: u32,
        image: *const u8,
        image_length: usize,
        page: *mut usize,
        clusters: *mut u32,
        free: *mut usize,
        reached: *mut usize,
        orphaned: *mut usize,
        held: *mut usize,
        mended: *mut usize,
    ) -> u32;

    /// The entry at a path.
    pub fn ps2card_find(
        format: u32,
        image: *const u8,
        image_length: usize,
        path: *const u8,
        path_length: usize,
        page: *mut usize,
        mode: *mut u16,
        length: *mut u32,
        created: *mut u8,
        first: *mut u32,
        dir_entry: *mut u32,
        modified: *mut u8,
        attribute: *mut u32,
        name: *mut u8,
        mended: *mut usize,
    ) -> u32;

    /// The first live entry of a directory from a slot on.
    pub fn ps2card_step(
        format: u32,
        image: *const u8,
        image_length: usize,
        path: *const u8,
        path_length: usize,
        slot: u32,
        page: *mut usize,
        found: *mut u32,
        at: *mut u32,
        mode: *mut u16,
        length: *mut u32,
        created: *mut u8,
        first: *mut u32,
        dir_entry: *mut u32,
        modified: *mut u8,
        attribute: *mut u32,
        name: *mut u8,
        mended: *mut usize,
    ) -> u32;

    /// Copies bytes of a file.
    pub fn ps2card_read(
        format: u32,
        image: *const u8,
        image_length: usize,
        path: *const u8,
        path_length: usize,
        offset: usize,
        out: *mut u8,
        out_length: usize,
        page: *mut usize,
        count: *mut usize,
        mended: *mut usize,
    ) -> u32;

    /// Writes the listing, its times shifted by so many minutes, and answers its whole length.
    pub fn ps2card_list(
        format: u32,
        image: *const u8,
        image_length: usize,
        minutes: i32,
        out: *mut u8,
        out_length: usize,
    ) -> usize;

    /// Creates a file.
    pub fn ps2card_create(
        format: u32,
        image: *mut u8,
        image_length: usize,
        path: *const u8,
        path_length: usize,
        time: *const u8,
        bytes: *const u8,
        bytes_length: usize,
        page: *mut usize,
    ) -> u32;

    /// Replaces a file's bytes.
    pub fn ps2card_replace(
        format: u32,
        image: *mut u8,
        image_length: usize,
        path: *const u8,
        path_length: usize,
        time: *const u8,
        bytes: *const u8,
        bytes_length: usize,
        page: *mut usize,
    ) -> u32;

    /// Deletes a file.
    pub fn ps2card_delete(
        format: u32,
        image: *mut u8,
        image_length: usize,
        path: *const u8,
        path_length: usize,
        page: *mut usize,
    ) -> u32;

    /// Makes a directory.
    pub fn ps2card_make_dir(
        format: u32,
        image: *mut u8,
        image_length: usize,
        path: *const u8,
        path_length: usize,
        time: *const u8,
        page: *mut usize,
    ) -> u32;

    /// Removes an empty directory.
    pub fn ps2card_remove_dir(
        format: u32,
        image: *mut u8,
        image_length: usize,
        path: *const u8,
        path_length: usize,
        page: *mut usize,
    ) -> u32;

    /// Writes the plain image of a raw one.
    pub fn ps2card_to_plain(
        image: *const u8,
        image_length: usize,
        out: *mut u8,
        out_length: usize,
        page: *mut usize,
    ) -> u32;

    /// Writes the raw image of a plain one.
    pub fn ps2card_to_raw(image: *const u8, image_length: usize, out: *mut u8, out_length: usize) -> u32;
}

/// The type of `ps2card_create` and `ps2card_replace`.
pub type Write =
    unsafe extern "C" fn(u32, *mut u8, usize, *const u8, usize, *const u8, *const u8, usize, *mut usize) -> u32;
