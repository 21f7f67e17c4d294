//! The conversions: which lengths, outputs and pages are refused, in which order, and what each page becomes.

use reader::build::random::random;
use reader::build::scribble::{break_page, flip, junk_spare};
use reader::build::{bench, standard};
use reader::card::is_allowed;
use reader::ecc::code_of;
use reader::page::{self, DATA};
use reader::rng::Rng;
use reader::{check, to_plain, to_raw, tree, Format, Refusal};

/// Either conversion, by the format it reads.
fn convert(from: Format, image: &[u8], output: &mut [u8]) -> Result<(), Refusal> {
    match from {
        Format::Raw => to_plain(image, output),
        Format::Plain => to_raw(image, output),
    }
}

/// What a conversion leaves in an output of the right length, which held junk.
fn converted(from: Format, image: &[u8]) -> Result<Vec<u8>, Refusal> {
    let length = image.len() / from.page_bytes() * from.other().page_bytes();
    let junk = Rng::new(length as u64).bytes(length);
    let mut output = junk.clone();
    let answer = convert(from, image, &mut output);
    assert!(answer.is_ok() || output == junk, "a refusal writes nothing");
    answer.map(|()| output)
}

/// The source is judged by its own format, then the output by the other; erased pages are readable.
#[test]
fn lengths() {
    for from in Format::BOTH {
        let (bytes, other) = (from.cluster_bytes(), from.other().cluster_bytes());
        for clusters in (0..=96).chain([255, 256, 264, 8192, 8193, 8200, 65_535, 65_536, 65_544]) {
            let exact = clusters * bytes;
            let image = vec![0xFF; exact + from.page_bytes()];
            for length in [exact.saturating_sub(1), exact, exact + 1, exact + from.page_bytes()] {
                let image = &image[..length];
                let is_card = length == exact && is_allowed(clusters);
                let right = clusters * other;
                let rooms = [right, right + 1, right.saturating_sub(1), 0, length];
                for &room in &rooms[..if clusters < 300 { 5 } else { 2 }] {
                    let expected = match (is_card, room == right) {
                        (false, _) => Err(Refusal::number(1)),
                        (true, false) => Err(Refusal::number(23)),
                        (true, true) => Ok(()),
                    };
                    let mut output = vec![0x5A; room];
                    assert_eq!(convert(from, image, &mut output), expected, "{from:?}, {length} to {room}");
                    assert!(expected.is_ok() || output.iter().all(|&byte| byte == 0x5A), "{length} to {room}");
                }
            }
        }
    }
}

/// Random bytes, no card at all: data as it stands, fresh codes and zeros; and back through flips and junk.
#[test]
fn pages() {
    for seed in 0..40 {
        let mut rng = Rng::new(seed);
        let pages = 16 * rng.between(4, 12);
        let plain = rng.bytes(pages * DATA);
        let mut raw = converted(Format::Plain, &plain).unwrap();
        for page in 0..pages {
            let (data, spare) = raw[Format::Raw.place(page)].split_at(DATA);
            assert_eq!(data, &plain[Format::Plain.place(page)]);
            let code: Vec<u8> = data.chunks(128).flat_map(code_of).collect();
            assert_eq!(spare, [&code[..], &[0; 4]].concat(), "page {page}");
        }
        for page in 0..pages {
            junk_spare(&mut raw, page, &mut rng);
            (0..4).for_each(|chunk| flip(Format::Raw, &mut raw, page, chunk, rng.below(1044)));
        }
        assert!(converted(Format::Raw, &raw).unwrap() == plain, "seed {seed}");
    }
}

/// The lowest unreadable page of all is told, also one that no call on a card would need.
#[test]
fn unreadable_pages() {
    let fresh = bench(Format::Raw);
    for page in 0..112 {
        let mut image = fresh.clone();
        break_page(Format::Raw, &mut image, page);
        assert_eq!(converted(Format::Raw, &image), Err(Refusal::unreadable(page)));
        for other in [page + 1, 111] {
            let mut image = image.clone();
            if other < 112 && other != page {
                break_page(Format::Raw, &mut image, other);
            }
            assert_eq!(converted(Format::Raw, &image), Err(Refusal::unreadable(page)));
        }
        // 23 comes before, 1 before that.
        assert_eq!(to_plain(&image, &mut [0; 512]), Err(Refusal::number(23)));
        assert_eq!(to_plain(&image[1..], &mut [0; 512]), Err(Refusal::number(1)));
    }
}

/// A random raw card has junk pages somewhere: 2 is the first that can't be read.
#[test]
fn random_cards() {
    let mut refused = 0;
    for seed in 0..80 {
        let image = random(Format::Raw, seed).image;
        let pages = 0..image.len() / Format::Raw.page_bytes();
        let expected = match pages.clone().find(|&page| page::read(Format::Raw, &image, page).is_none()) {
            Some(page) => Err(Refusal::unreadable(page)),
            None => Ok(pages.flat_map(|page| page::read(Format::Raw, &image, page).unwrap()).collect()),
        };
        refused += usize::from(expected.is_err());
        assert!(converted(Format::Raw, &image) == expected, "seed {seed}");
    }
    assert!((40..=80).contains(&refused), "{refused}");
}

/// There and back: plain bytes are the same; raw ones too, where codes are fresh and the last spare bytes zero.
#[test]
fn round_trips() {
    let plain = (0..60).map(|seed| random(Format::Plain, seed).image);
    for plain in plain.chain([bench(Format::Plain), standard(Format::Plain)]) {
        let raw = converted(Format::Plain, &plain).unwrap();
        assert!(converted(Format::Raw, &raw).unwrap() == plain);
        assert_eq!(check(Format::Raw, &raw), check(Format::Plain, &plain));
        assert!(tree(Format::Raw, &raw) == tree(Format::Plain, &plain));
        let again = converted(Format::Plain, &converted(Format::Raw, &raw).unwrap()).unwrap();
        assert!(again == raw);
    }
}
