//! The code of a chunk: each byte value at each place of a chunk, alone in it. Both sides write them, and the library
//! reads them back, also with a flipped bit in each. Raw images alone have codes.

mod common;

use common::changes::Changes;
use reader::build::{standard, usual_time};
use reader::ecc::CHUNK;
use reader::page::DATA;
use reader::tree::Checked;
use reader::Format::Raw;
use reader::{Answer, Change};

const PATH: &[u8] = b"/EVERY";
const CHUNKS: usize = 256 * CHUNK;

/// The place and the value of the one byte in a chunk of the file that isn't zero.
fn lone_byte(chunk: usize) -> (usize, u8) {
    (chunk / 256, (chunk % 256) as u8)
}

/// The file: a chunk for each value at each place.
fn data() -> Vec<u8> {
    let mut data = vec![0; CHUNKS * CHUNK];
    for (number, chunk) in data.chunks_mut(CHUNK).enumerate() {
        let (place, byte) = lone_byte(number);
        chunk[place] = byte;
    }
    data
}

/// The code of a chunk with one byte, from the rule.
fn code_of(place: usize, byte: u8) -> [u8; 3] {
    let odd = |value: u8| value.count_ones() as u8 % 2;
    let masks = [(0, 0x55), (1, 0x33), (2, 0x0F), (4, 0xAA), (5, 0xCC), (6, 0xF0)];
    let columns: u8 = masks.iter().map(|(bit, mask)| odd(byte & mask) << bit).sum();
    [0x77 ^ columns, 0x7F ^ (odd(byte) * (127 - place as u8)), 0x7F ^ (odd(byte) * place as u8)]
}

/// The image with the file, and where its pages begin.
fn card() -> (Vec<u8>, Vec<usize>) {
    let mut image = standard(Raw);
    let create = Change::Create { path: PATH.to_vec(), time: usual_time(), data: data() };
    assert_eq!(Changes::new(Raw).apply(&mut image, &create, || "every byte at every place".into()), Ok(()));
    let checked = Checked::of(Raw, &image).expect("an accepted card");
    let file = &checked.root.inside.as_ref().expect("a directory").children[0];
    let pages = (0..CHUNKS / 4).map(|page| Raw.place(checked.card.slot_page(&file.chain, page)).start).collect();
    (image, pages)
}

/// The file reads as it was written, with so many chunks corrected.
fn read_back(image: &[u8], mended: usize) {
    let expected = data();
    let mut bytes = vec![0xA5; expected.len()];
    let answer = compare::read_mended(Raw, image, PATH, 0, &mut bytes);
    assert_eq!(answer, Ok(Answer { value: expected.len(), mended }));
    assert!(bytes == expected);
}

#[test]
fn every_byte_at_every_place() {
    let (image, pages) = card();
    for chunk in 0..CHUNKS {
        let (place, byte) = lone_byte(chunk);
        let stored = pages[chunk / 4] + DATA + 3 * (chunk % 4);
        assert_eq!(image[stored..stored + 3], code_of(place, byte), "byte {byte:02X} at {place}");
    }
    read_back(&image, 0);
}

/// Each of the 1,024 data bits in turn, so that each is flipped in 32 of the chunks.
#[test]
fn one_flip_in_each() {
    let (mut image, pages) = card();
    for chunk in 0..CHUNKS {
        let bit = chunk % (8 * CHUNK);
        image[pages[chunk / 4] + CHUNK * (chunk % 4) + bit / 8] ^= 1 << (bit % 8);
    }
    read_back(&image, CHUNKS);
}
