//! The wrapper: owned and borrowed cards of both formats, errors, threads and stack, and how its sources treat `unsafe`.

use std::error::Error;
use std::fs;
use std::path::{Path, PathBuf};
use std::thread;

use ps2card::image_file;
use ps2card::{Card, CardMut, CardRef, Format, Refusal, Stamp, MOST_CLUSTERS, STACK};
use reader::build;
use reader::Format::{Plain, Raw};

fn time() -> Stamp {
    Stamp(build::usual_time())
}

/// All five changes, and calls that look, on any card.
fn work<B: AsRef<[u8]> + AsMut<[u8]>>(card: &mut Card<B>) -> Result<Vec<u8>, Refusal> {
    card.make_dir(b"/D", &time())?;
    card.make_dir(b"/E", &time())?;
    card.create(b"/D/F", &time(), &[7; 1500])?;
    card.create(b"/D/G", &time(), b"")?;
    card.replace(b"/D/F", &time(), b"other bytes")?;
    card.delete(b"/D/G")?;
    card.remove_dir(b"/E")?;
    assert_eq!(card.entries(b"/D")?.len(), 1);
    assert_eq!(card.bytes(b"/D/F", 6, 100)?, b"bytes");
    card.list()
}

/// A borrowed card works in the caller's buffer and does what an owned one does.
#[test]
fn owned_and_borrowed() {
    for (format, image) in [(Format::Raw, build::bench(Raw)), (Format::Plain, build::bench(Plain))] {
        let mut owned = Card::new(format, image.clone());
        let text = work(&mut owned).expect("room");
        let mut buffer = image.clone();
        let mut changing: CardMut = Card::new(format, &mut buffer[..]);
        assert_eq!((work(&mut changing), changing.format()), (Ok(text.clone()), format));
        assert!(buffer == owned.image() && buffer != image);
        let looking: CardRef = Card::new(format, &buffer[..]);
        assert_eq!((looking.list(), looking.check()), (Ok(text), owned.check()));
        // The buffer may be an array or a box as well.
        let boxed = Card::new(format, buffer.clone().into_boxed_slice());
        assert_eq!(boxed.find(b"/D/F"), owned.find(b"/D/F"));
        assert!(boxed.into_image()[..] == buffer[..]);
    }
}

/// The format is part of a card: raw by default, as said by its two shorter names, and told apart by equality.
#[test]
fn formats() {
    assert_eq!(Format::default(), Format::Raw);
    assert_eq!(Format::ALL.map(|format| format.to_string()), ["raw", "plain"]);
    assert_eq!(Format::ALL.map(Format::other), [Format::Plain, Format::Raw]);
    for (format, card) in [(Format::Raw, Card::raw(b"same")), (Format::Plain, Card::plain(b"same"))] {
        assert_eq!((card.format(), card), (format, Card::new(format, b"same")));
    }
    assert_ne!(Card::raw(b"same"), Card::plain(b"same"));
    for (format, page) in [(Format::Raw, 528), (Format::Plain, 512)] {
        assert_eq!((format.page_bytes(), format.cluster_bytes()), (page, 2 * page));
        assert_eq!(format.most_bytes(), 65_536 * 2 * page);
        assert!(format.is_length(32 * 2 * page) && !format.is_length(36 * 2 * page) && !format.is_length(0));
    }
    // A card is what its caller says: the same bytes are of the wrong length for the other format.
    assert_eq!(Card::plain(build::bench(Raw)).check(), Err(Refusal::BadLength));
    assert_eq!(Card::raw(build::bench(Plain)).list(), Err(Refusal::BadLength));
}

/// The listing, which tells a refusal in its text, gives the refusal that the check gives.
#[test]
fn refused_listings() {
    let [mut unreadable, mut other_text] = [build::bench(Raw), build::bench(Plain)];
    unreadable[0] ^= 3;
    other_text[0] ^= 3;
    let mut no_text = build::bench(Raw);
    reader::page::write(Raw, &mut no_text, 0, &[0; 512]);
    for (card, number) in [
        (Card::raw(vec![]), 1),
        (Card::plain(vec![]), 1),
        (Card::raw(unreadable), 2),
        (Card::plain(other_text), 3),
        (Card::raw(no_text), 3),
    ] {
        let refusal = card.list().expect_err("a refusal");
        assert_eq!((refusal.number(), refusal.page()), (number, (number == 2).then_some(0)));
        assert_eq!((Err(refusal), card.tree()), (card.check(), Err(refusal)));
    }
}

/// The check reads no file data, as the header says: a card with a damaged file passes, and a read of it does not.
#[test]
fn check_reads_no_file_data() {
    let mut card = Card::raw(build::bench(Raw));
    card.create(b"/F", &time(), &[7; 3000]).expect("room");
    let (sound, first) = (card.check(), card.find(b"/F").expect("a file").first as usize);
    // The allocatable clusters of this card start at 10; its second page has bytes 512 to 1023.
    let page = 2 * (10 + first) + 1;
    let mut image = card.into_image();
    image[page * 528] ^= 3;
    let card = Card::raw(image);
    assert!(sound.is_ok() && card.check() == sound && card.list().is_ok());
    assert_eq!(card.bytes(b"/F", 0, 3000), Err(Refusal::UnreadablePage(page)));
    assert_eq!(card.bytes(b"/F", 0, 512).map(|bytes| bytes.len()), Ok(512));
}

/// Each bit of a chunk by itself: 1,024 of its data and 20 of its code are mended; 4 of the code and the 32 behind the
/// codes of the page are ignored.
#[test]
fn mended_bits() {
    let sound = build::bench(Raw);
    for (page, chunk) in [(0, 1), (18, 0), (21, 3)] {
        let (data, code, rest) = (528 * page + 128 * chunk, 528 * page + 512 + 3 * chunk, 528 * page + 524);
        let ignored = [0x88, 0x80, 0x80];
        let masks = (data..data + 128).map(|byte| (byte, 0xFF)).chain((0..3).map(|at| (code + at, !ignored[at])));
        let mut mended = 0;
        for (byte, mask) in masks.chain((rest..rest + 4).map(|byte| (byte, 0))) {
            for bit in 0..8 {
                let mut image = sound.clone();
                image[byte] ^= 1 << bit;
                let chunks = Card::raw(image).check().expect("a card").mended;
                assert_eq!(chunks, usize::from(mask >> bit & 1 == 1), "byte {byte}, bit {bit}");
                mended += chunks;
            }
        }
        assert_eq!(mended, 1_044);
    }
}

/// Both errors go where any error goes, with words.
#[test]
fn errors() {
    fn any(error: impl Error + Send + Sync + 'static) -> Box<dyn Error + Send + Sync> {
        Box::new(error)
    }
    let refusal = Card::raw(Vec::new()).check().expect_err("no card");
    assert!(any(refusal).to_string().starts_with("refused 1: "));
    assert_eq!(any(image_file::Error::from(refusal)).to_string(), refusal.to_string());
    let absent = image_file::load(Format::Raw, Path::new("no/such/image")).expect_err("no file");
    let words = absent.to_string();
    assert_eq!(any(image_file::Error::from(absent)).to_string(), words);
}

/// Rust's usual stack of a thread.
const USUAL_STACK: usize = 2 * 1024 * 1024;

/// The calls of `work` in the deepest directory too.
fn deep_work(card: &mut Card) -> Result<Vec<u8>, Refusal> {
    let deepest = b"/a/b/c/d/e/f/g";
    for names in 1..=7 {
        card.make_dir(&deepest[..2 * names], &time())?;
    }
    card.create(b"/a/b/c/d/e/f/g/h", &time(), &[7; 1500])?;
    card.replace(b"/a/b/c/d/e/f/g/h", &time(), b"other bytes")?;
    card.create(b"/a/b/c/d/e/f/g/i", &time(), b"")?;
    assert_eq!(card.entries(deepest)?.len(), 2);
    card.delete(b"/a/b/c/d/e/f/g/i")?;
    card.make_dir(b"/a/b/c/d/e/f/i", &time())?;
    card.remove_dir(b"/a/b/c/d/e/f/i")?;
    assert_eq!((card.bytes(b"/a/b/c/d/e/f/g/h", 6, 100)?, card.find(deepest)?.length), (b"bytes".to_vec(), 4));
    let [raw, plain] = [card.to_raw()?, card.to_plain()?];
    assert_eq!((raw.check(), plain.list()), (card.check(), card.list()));
    work(card)
}

/// Threads that have the promised stack and little more, or Rust's usual one, at once, on images of their own of two
/// sizes and both formats: no state, no overflow.
#[test]
fn threads_and_stack() {
    let [small, large] =
        [56, MOST_CLUSTERS].map(|clusters| Card::fresh(Format::Raw, clusters, &time()).expect("a size"));
    let texts = [&small, &large].map(|card| deep_work(&mut card.clone()).expect("room"));
    let threads: Vec<(thread::JoinHandle<Vec<u8>>, &Vec<u8>)> = (0..8)
        .map(|number| {
            let mut card = [&small, &large][number / 4].clone();
            if number % 2 == 1 {
                card = card.to_plain().expect("a sound card");
            }
            let stack = if number % 4 < 2 { STACK + 64 * 1024 } else { USUAL_STACK };
            let thread = thread::Builder::new().stack_size(stack).spawn(move || deep_work(&mut card).expect("room"));
            (thread.expect("a thread"), &texts[number / 4])
        })
        .collect();
    for (thread, text) in threads {
        assert_eq!(&thread.join().expect("no overflow"), text);
    }
    // The bound is the largest that the header gives.
    let header = include_str!("../../include/ps2card.h");
    assert!(header.contains("a thread of 2 MiB runs every call"));
    let figures = header.split("at most ").skip(1);
    let most = figures.filter_map(|text| text.split(" KiB").next()?.replace(',', "").parse::<usize>().ok()).max();
    assert_eq!(most, Some(STACK / 1024));
    const { assert!(STACK + 256 * 1024 <= USUAL_STACK) };
}

/// Every Rust source of the workspace.
fn sources() -> Vec<(PathBuf, String)> {
    let root = Path::new(env!("CARGO_MANIFEST_DIR")).join("..");
    let (mut folders, mut sources) = (vec![root.join("command"), root.join("bench")], Vec::new());
    while let Some(folder) = folders.pop() {
        for entry in fs::read_dir(folder).expect("a folder") {
            let path = entry.expect("an entry").path();
            if path.is_dir() {
                folders.push(path);
            } else if path.extension().is_some_and(|ending| ending == "rs") {
                let text = fs::read_to_string(&path).expect("a source");
                sources.push((path, text));
            }
        }
    }
    sources
}

/// Each `unsafe` block has its own reason right above its statement, and one file alone declares the library.
#[test]
fn unsafe_has_reasons() {
    let (mut blocks, mut declaring) = (0, Vec::new());
    for (path, text) in sources() {
        if text.contains(concat!("fn ps2card", "_")) {
            declaring.push(path.clone());
        }
        let lines: Vec<&str> = text.lines().collect();
        for (place, _) in lines.iter().enumerate().filter(|(_, line)| line.contains(concat!("unsafe ", "{"))) {
            let above = lines[..place].iter().rev().skip_while(|line| !line.trim_start().starts_with("//")).take(4);
            let reason =
                above.take_while(|line| line.trim_start().starts_with("//")).any(|line| line.contains("SAFETY: "));
            let near = lines[place.saturating_sub(5)..place].iter().any(|line| line.trim_start().starts_with("//"));
            assert!(reason && near, "{}:{}", path.display(), place + 1);
            blocks += 1;
        }
    }
    assert!(blocks >= 20, "{blocks} blocks");
    assert_eq!(declaring.len(), 1, "{declaring:?}");
    assert!(declaring[0].ends_with("command/sys/src/lib.rs"));
}
