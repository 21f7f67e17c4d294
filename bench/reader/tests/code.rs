//! Code vectors and the numbers of document 01 that concern codes and table words.

use reader::build::scribble::flip;
use reader::build::{bench, usual_time};
use reader::card::{link, Link};
use reader::ecc::{code_of, judge, Flip, Verdict};
use reader::page::{self, DATA};
use reader::time::stamp;
use reader::Format::Raw;

fn with(place: usize, value: u8) -> [u8; 128] {
    let mut chunk = [0; 128];
    chunk[place] = value;
    chunk
}

fn bytes(hex: &str) -> Vec<u8> {
    (0..hex.len()).step_by(2).map(|at| u8::from_str_radix(&hex[at..at + 2], 16).unwrap()).collect()
}

#[test]
fn recorded_vectors() {
    let text = include_str!("../testdata/ecc-vectors.txt");
    let mut count = 0;
    for line in text.lines().filter(|line| !line.starts_with('#') && !line.is_empty()) {
        let (chunk, code) = line.split_once(' ').unwrap();
        assert_eq!(code_of(&bytes(chunk)).to_vec(), bytes(code));
        count += 1;
    }
    assert!(count >= 200, "{count} vectors");
}

#[test]
fn numbers_to_meet() {
    assert_eq!(code_of(&[0; 128]), [0x77, 0x7F, 0x7F]);
    assert_eq!(code_of(&with(0, 0x01)), [0x70, 0x00, 0x7F]);
    assert_eq!(code_of(&with(127, 0x80)), [0x07, 0x7F, 0x00]);
    assert_eq!(code_of(&with(5, 0x10)), [0x34, 0x05, 0x7A]);

    let mut two = with(0, 1);
    two[1] = 1;
    assert_eq!(judge(&two, [0x77, 0x7F, 0x7F]), Verdict::Unreadable);
    assert_eq!(judge(&[0xFF; 128], [0xFF; 3]), Verdict::Good);

    assert_eq!(link(0x7FFF_FFFF), Link::Free);
    assert_eq!(link(0x8000_0001), Link::Next(1));
    assert_eq!(link(0xFFFF_FFFF), Link::End);

    let mut image = bench(Raw);
    assert_eq!(reader::create(Raw, &mut image, b"/A", &stamp(2000, 2, 29, 0, 0, 0), b""), Ok(()));
    let refusal = reader::create(Raw, &mut image, b"/B", &stamp(2100, 2, 29, 0, 0, 0), b"").unwrap_err();
    assert_eq!((refusal.number, refusal.page), (14, None));
}

#[test]
fn every_single_flip_is_mended() {
    let mut image = bench(Raw);
    let before = page::read(Raw, &image, 20).unwrap();
    for chunk in 0..4 {
        for place in 0..1044 {
            flip(Raw, &mut image, 20, chunk, place);
            assert_eq!(page::read(Raw, &image, 20), Some(before));
            flip(Raw, &mut image, 20, chunk, place);
        }
    }
    for chunk in 0..4 {
        flip(Raw, &mut image, 20, chunk, 300 * chunk + 17);
    }
    assert_eq!(page::read(Raw, &image, 20), Some(before), "one flip in every chunk");
}

#[test]
fn ignored_bits_change_nothing() {
    let mut image = bench(Raw);
    let before = page::read(Raw, &image, 20).unwrap();
    for chunk in 0..4 {
        let code = &mut image[Raw.place(20)][DATA + 3 * chunk..][..3];
        code[0] ^= 0x88;
        code[1] ^= 0x80;
        code[2] ^= 0x80;
    }
    image[Raw.place(20)][DATA + 12..].fill(0xA5);
    assert_eq!(page::read(Raw, &image, 20), Some(before));
    for chunk in before.chunks(128) {
        let mut code = code_of(chunk);
        code[0] |= 0x88;
        assert_eq!(judge(chunk, code), Verdict::Good);
        code[1] ^= 1;
        assert_eq!(judge(chunk, code), Verdict::Corrected(Flip::Code { byte: 1, bit: 0 }));
    }
}

#[test]
fn writing_keeps_the_last_spare_bytes() {
    let mut image = bench(Raw);
    image[Raw.place(40)][DATA..].copy_from_slice(&[0xEE; 16]);
    let data = reader::build::file(b"x", 5, 1).page();
    page::write(Raw, &mut image, 40, &data);
    assert_eq!(page::read(Raw, &image, 40), Some(data));
    assert_eq!(image[Raw.place(40)][DATA + 12..], [0xEE; 4]);
    assert!(image[Raw.place(40)][DATA..][..12]
        .chunks(3)
        .all(|code| code[0] & 0x88 == 0 && (code[1] | code[2]) & 0x80 == 0));
    assert!(reader::time::valid(&usual_time()));
}
