//! Conversions through the wrapper, against the independent reader.

mod common;

use common::{converted, in_wrapper, mended};
use ps2card::{Card, Refusal};
use reader::build::{bad, good, random, samples, scribble};
use reader::rng::Rng;
use reader::Format::{self, Plain, Raw};

/// What stands in a buffer before a conversion.
const BEFORE: u8 = 0x5A;

/// Converts by the wrapper and by the reader into buffers of a length: the same answer, the same bytes.
fn judge(from: Format, image: &[u8], length: usize) -> Result<Vec<u8>, u8> {
    let [mut given, mut expected] = [vec![BEFORE; length], vec![BEFORE; length]];
    let answer = Card::new(in_wrapper(from), image).convert_into(in_wrapper(from.other()), &mut given);
    let right = match from {
        Raw => reader::to_plain(image, &mut expected),
        Plain => reader::to_raw(image, &mut expected),
    };
    let told = answer.map_err(|refusal| (refusal.number(), refusal.page()));
    assert_eq!(told, right.map_err(|refusal| (u32::from(refusal.number), refusal.page)), "{from:?}, {length} bytes");
    assert!(given == expected, "{from:?}, {length} bytes");
    match right {
        Ok(()) => Ok(given),
        Err(refusal) => {
            assert!(given.iter().all(|&byte| byte == BEFORE));
            Err(refusal.number)
        }
    }
}

/// The length that a conversion needs.
fn needed(from: Format, image: &[u8]) -> usize {
    image.len() / from.page_bytes() * from.other().page_bytes()
}

/// Random cards, worn and with unreadable pages, then without those, and back: the data is the same, the codes are fresh.
#[test]
fn random_cards() {
    let (mut unreadable, mut worn) = (0, 0);
    for seed in 0..60 {
        let mut image = random::sized(Raw, seed, 8 * Rng::new(seed).between(4, 30)).image;
        unreadable += usize::from(judge(Raw, &image, needed(Raw, &image)) == Err(2));
        for page in 0..image.len() / Raw.page_bytes() {
            match reader::page::read(Raw, &image, page) {
                Some(data) => worn += usize::from(data != image[Raw.place(page)][..512]),
                None => reader::page::write(Raw, &mut image, page, &[seed as u8; 512]),
            }
        }
        let plain = judge(Raw, &image, needed(Raw, &image)).expect("readable pages");
        let raw = judge(Plain, &plain, needed(Plain, &plain)).expect("a plain image");
        assert!(judge(Raw, &raw, plain.len()).expect("fresh codes") == plain);
        assert!(raw.chunks(528).all(|page| page[524..] == [0; 4]));
        // The same listings, but that only the worn card has chunks to mend.
        let listed = String::from_utf8(Card::raw(&image).list().expect("a card")).expect("text");
        let line = format!("\nmended {}\n", mended::in_check(Raw, &image));
        let listed = Ok(listed.replacen(&line, "\nmended 0\n", 1).into_bytes());
        assert_eq!((Card::plain(&plain).list(), Card::raw(&raw).list()), (listed.clone(), listed));
    }
    println!("{unreadable} cards with an unreadable page, {worn} pages with wrong bits");
    assert!(unreadable > 30 && worn > 100, "{unreadable} {worn}");
}

/// What the pages hold is not judged: cards that the check refuses are converted, and bytes that are no card.
#[test]
fn nothing_but_lengths_and_pages() {
    let mut refused = 0;
    for format in Format::BOTH {
        for card in bad::all(format) {
            let answer = judge(format, &card.image, needed(format, &card.image));
            refused += usize::from(answer.is_ok());
        }
        for card in good::all(format) {
            let _ = judge(format, &card.image, needed(format, &card.image));
        }
        let mut rng = Rng::new(23);
        for clusters in [32, 40, 256, 8_192, 65_536] {
            let bytes = rng.bytes(clusters * format.cluster_bytes());
            assert_eq!(judge(format, &bytes, needed(format, &bytes)).is_ok(), format == Plain);
        }
    }
    println!("{refused} refused cards converted");
    assert!(refused > 100, "{refused}");
}

/// 1, then 23, then 2; each leaves the output.
#[test]
fn order() {
    for format in Format::BOTH {
        let mut image = converted(format, &samples::save());
        scribble::break_page(format, &mut image, 111);
        scribble::break_page(format, &mut image, 7);
        let right = needed(format, &image);
        for length in [0, 1, image.len(), right - 1, right + 1, right - 512, right + 528, 2 * right] {
            assert_eq!(judge(format, &image, length), Err(23), "{length}");
            assert_eq!(judge(format, &image[1..], length), Err(1), "{length}");
        }
        for length in [0, 1, 24, 31, 36, 65_537, 65_544] {
            let clusters = vec![0; length * format.cluster_bytes()];
            assert_eq!(judge(format, &clusters, needed(format, &clusters)), Err(1), "{length}");
        }
        assert_eq!(judge(format, &image, right).err(), (format == Raw).then_some(2));
    }
    let mut image = samples::save();
    scribble::break_page(Raw, &mut image, 111);
    assert_eq!(Card::raw(&image).to_plain(), Err(Refusal::UnreadablePage(111)));
    scribble::break_page(Raw, &mut image, 7);
    assert_eq!(Card::raw(&image).to_plain(), Err(Refusal::UnreadablePage(7)));
}

/// Into its own format a card is copied as it is, and judged by length alone.
#[test]
fn copies() {
    let mut image = samples::save();
    scribble::break_page(Raw, &mut image, 7);
    let raw = Card::raw(image);
    assert_eq!(raw.to_raw().as_ref(), Ok(&raw));
    let plain = Card::plain(converted(Plain, &samples::save()));
    assert_eq!(plain.to_plain().as_ref(), Ok(&plain));
    assert_eq!(plain.to_raw().and_then(|raw| raw.to_plain()).as_ref(), Ok(&plain));
    let mut short = vec![BEFORE; plain.image().len() - 1];
    assert_eq!(plain.convert_into(ps2card::Format::Plain, &mut short), Err(Refusal::WrongOutput));
    assert!(short.iter().all(|&byte| byte == BEFORE));
    assert_eq!(Card::plain(raw.image()).to_plain(), Err(Refusal::BadLength));
    assert_eq!(Card::raw(plain.image()).to_raw(), Err(Refusal::BadLength));
}
