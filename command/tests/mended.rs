//! Chunks with one wrong bit: `check` and `list` count them, other commands that look say how many they mended, each
//! page counted once, and the image stays as it is.

mod common;

use std::fs;
use std::process::Stdio;

use common::{mended, Folder, Outcome, USUAL};
use ps2card::Card;
use reader::build::scribble;
use reader::Format::{Plain, Raw};
use reader::Refusal;

/// Bytes of a raw page, with its 16 spare ones.
const PAGE: usize = 528;

/// Some bits of a chunk's three code bytes that count, and all that are ignored, by byte and bit.
const CODE_BITS: [(usize, usize); 4] = [(0, 0), (0, 6), (1, 3), (2, 6)];
const IGNORED_BITS: [(usize, usize); 4] = [(0, 3), (0, 7), (1, 7), (2, 7)];

/// A folder with the raw card `card`, made by the command: 56 clusters, `/SAVE` with a file of 1,500 bytes and one of
/// 600, and a dead slot in the root.
fn station() -> Folder {
    let folder = Folder::new();
    folder.run(&["new", "card", "56", "--stamp", USUAL]).done();
    fs::create_dir(folder.path("SAVE")).expect("a folder");
    folder.write("SAVE/A", &(0..1500).map(|place| (place % 251) as u8).collect::<Vec<u8>>());
    folder.write("SAVE/B", &[7; 600]);
    folder.run(&["put", "card", "SAVE", "--stamp", USUAL]).done();
    folder.run(&["create", "card", "/dead", "SAVE/B", "--stamp", USUAL]).done();
    folder.run(&["rm", "card", "/dead"]).done();
    folder
}

/// The pages of that card: superblock, indirect cluster, table, root with its dead slot, `/SAVE`; then the files.
const NEEDED: [usize; 13] = [0, 16, 17, 18, 19, 20, 21, 22, 23, 24, 25, 26, 27];
const DEAD: usize = 23;
const OF_A: [usize; 3] = [28, 29, 30];
const OF_B: [usize; 2] = [32, 33];
/// In the last cluster of A, but after its end; free; in a backup block.
const UNNEEDED: [usize; 3] = [31, 60, 110];

/// Flips a data bit of a page's chunk.
fn flip(image: &mut [u8], page: usize, chunk: usize) {
    image[PAGE * page + 128 * chunk + page % 128] ^= 1 << (chunk + page % 4);
}

/// Flips a bit of a chunk's code.
fn flip_code(image: &mut [u8], page: usize, chunk: usize, byte: usize, bit: usize) {
    image[PAGE * page + 512 + 3 * chunk + byte] ^= 1 << bit;
}

/// The card of `station` with wrong bits: three chunks of the check's pages, two of A, one of B, and others that no
/// call needs.
fn worn(sound: &[u8]) -> Vec<u8> {
    let mut image = sound.to_vec();
    flip(&mut image, 0, 2);
    flip_code(&mut image, 19, 3, 2, 6);
    flip(&mut image, DEAD, 0);
    flip(&mut image, OF_A[0], 1);
    flip_code(&mut image, OF_A[2], 0, 0, 4);
    flip(&mut image, OF_B[1], 3);
    UNNEEDED.iter().for_each(|&page| flip(&mut image, page, 1));
    // These count in no page.
    for page in [20, OF_A[1]] {
        IGNORED_BITS.iter().for_each(|&(byte, bit)| flip_code(&mut image, page, 2, byte, bit));
        image[PAGE * page + 524..PAGE * page + 528].iter_mut().for_each(|byte| *byte ^= 0x5A);
    }
    image
}

/// What `check` and `list` tell of the image in `card`, without a word on standard error.
#[track_caller]
fn counted(folder: &Folder) -> usize {
    let [check, list] = ["check", "list"].map(|command| folder.run(&[command, "card"]).text());
    let count = |text: &str| {
        let (_, rest) = text.split_once("\nheld 0\nmended ").expect("the count");
        rest.lines().next().and_then(|count| count.parse::<usize>().ok()).expect("a number")
    };
    assert_eq!(count(&check), count(&list));
    count(&check)
}

/// Each kind of bit, by `check` and `list`: in the data, in the code, and one that reading ignores.
#[test]
fn kinds_of_bits() {
    let folder = station();
    let sound = folder.read("card");
    assert_eq!(counted(&folder), 0);
    let told = |change: &dyn Fn(&mut [u8])| {
        let mut image = sound.clone();
        change(&mut image);
        folder.write("card", &image);
        counted(&folder)
    };
    for page in [0, 17, 20, DEAD, 27] {
        for chunk in 0..4 {
            assert_eq!(told(&|image| flip(image, page, chunk)), 1, "page {page}, chunk {chunk}");
            let (byte, bit) = CODE_BITS[chunk];
            assert_eq!(told(&|image| flip_code(image, page, chunk, byte, bit)), 1, "page {page}, code {chunk}");
            let (byte, bit) = IGNORED_BITS[chunk];
            assert_eq!(told(&|image| flip_code(image, page, chunk, byte, bit)), 0, "page {page}, code {chunk}");
            assert_eq!(told(&|image| image[PAGE * page + 524 + chunk] ^= 0x81), 0, "page {page}, spare {chunk}");
        }
    }
    for page in OF_A.into_iter().chain(OF_B).chain(UNNEEDED) {
        assert_eq!(told(&|image| flip(image, page, 0)), 0, "page {page}");
    }
    // All chunks of all pages that it needs, and of the others.
    let every = |pages: &[usize], image: &mut [u8]| {
        pages.iter().for_each(|&page| (0..4).for_each(|chunk| flip(image, page, chunk)));
    };
    assert_eq!(told(&|image| every(&NEEDED, image)), 4 * NEEDED.len());
    assert_eq!(told(&|image| every(&[&NEEDED[..], &OF_A, &OF_B, &UNNEEDED].concat(), image)), 4 * NEEDED.len());
}

/// Every command that looks, with how many chunks it mends on the worn card.
fn looks() -> Vec<(&'static [&'static str], usize)> {
    vec![
        (&["find", "card", "/"], 3),
        (&["find", "card", "/SAVE/A"], 3),
        (&["step", "card", "/", "0"], 3),
        (&["step", "card", "/", "4"], 3),
        (&["ls", "card"], 3),
        (&["ls", "card", "/SAVE", "-l"], 3),
        (&["ls", "card", "/SAVE/A"], 3),
        (&["read", "card", "/SAVE/A"], 5),
        (&["cat", "card", "/SAVE/B"], 4),
        (&["read", "card", "/SAVE/A", "511", "1"], 4),
        (&["read", "card", "/SAVE/A", "512", "512"], 3),
        (&["read", "card", "/SAVE/A", "512", "513"], 4),
        (&["read", "card", "/SAVE/A", "1500"], 3),
        (&["read", "card", "/SAVE/A", "0", "0"], 3),
        (&["get", "card", "/SAVE/A", "-"], 5),
        (&["get", "card", "/SAVE/B", "out"], 4),
        (&["get", "card", "/SAVE", "out"], 6),
        (&["get", "card", "/", "out"], 6),
        (&["verify", "card"], 6),
        (&["compare", "card", "sound"], 6),
        (&["compare", "card", "sound", "--bytes-only"], 6),
    ]
}

/// The output is that of the sound card, one line tells how much was mended, the status is 0 and the image stays.
#[test]
fn told_once() {
    let folder = station();
    let sound = folder.read("card");
    let image = worn(&sound);
    folder.write("sound", &sound);
    for (words, chunks) in looks() {
        let taken = |given: Outcome| {
            let kept = folder.names().contains(&"out".to_string());
            let out = kept.then(|| folder.tool("sh", &["-c", "tar -c --sort=name out; rm -r out"]).stdout);
            (given, out)
        };
        folder.write("card", &sound);
        let (given, files) = taken(folder.run(words));
        let expected = given.done();
        folder.write("card", &image);
        let (given, again) = taken(folder.run(words));
        assert_eq!(given, Outcome { status: 0, out: expected, err: mended::line("card", chunks) }, "{words:?}");
        assert!(files == again && folder.read("card") == image, "{words:?}");
    }
    assert_eq!(counted(&folder), 3);
    // Each image has a line of its own, by the name that it was given.
    let given = folder.run(&["compare", "sound", "card"]);
    assert_eq!((given.status, given.err), (0, mended::line("card", 6)));
    let given = folder.feed(&[b"compare", b"card", b"-"], &image);
    assert_eq!((given.status, given.err), (0, mended::line("card", 6) + &mended::line("standard input", 6)));
    let given = folder.feed(&[b"verify", b"-", b"sound", b"card"], &image);
    assert_eq!((given.status, given.err), (0, mended::line("standard input", 6) + &mended::line("card", 6)));
    folder.feed(&[b"cat", b"-", b"/SAVE/A"], &image).mending("standard input", 5);
    // One alone.
    let mut image = sound;
    flip(&mut image, 21, 0);
    folder.write("card", &image);
    let line =
        "ps2card: card: 1 chunk of 128 bytes had one wrong bit and was mended as it was read; the image is unchanged";
    assert_eq!(folder.run(&["ls", "card"]).err, format!("{line}\n"));
}

/// Nothing is said of a sound card, of pages that are not needed, and of a plain one.
#[test]
fn nothing_to_say() {
    let folder = station();
    let sound = folder.read("card");
    folder.write("sound", &sound);
    let mut elsewhere = sound.clone();
    UNNEEDED.iter().for_each(|&page| (0..4).for_each(|chunk| flip(&mut elsewhere, page, chunk)));
    for image in [&sound, &elsewhere] {
        folder.write("card", image);
        for (words, _) in looks() {
            folder.run(words).done();
            folder.tool("rm", &["-rf", "out"]);
        }
        assert_eq!(counted(&folder), 0);
    }
    folder.write("card", &worn(&sound));
    folder.run(&["convert", "card", "plain", "--to-plain"]).done();
    let plain = Folder::of(Plain);
    for name in ["card", "sound"] {
        plain.write(name, &folder.read("plain"));
    }
    for (words, _) in looks() {
        plain.run(words).done();
        plain.tool("rm", &["-rf", "out"]);
    }
    assert_eq!(counted(&plain), 0);
    // Bits of a plain image are its data, whatever they are.
    let mut image = plain.read("card");
    image[512 * 20 + 511] ^= 1;
    plain.write("card", &image);
    assert_eq!(counted(&plain), 0);
}

/// A refusal is all that a refused command says, though calls before it were accepted; changes say nothing either.
#[test]
fn refused_and_changed() {
    let folder = station();
    let sound = folder.read("card");
    let mut image = worn(&sound);
    folder.write("card", &image);
    folder.run(&["find", "card", "/none"]).refused(Refusal::number(9));
    folder.run(&["step", "card", "/SAVE/A", "0"]).refused(Refusal::number(10));
    folder.run(&["read", "card", "/SAVE/A", "1501"]).refused(Refusal::number(15));
    folder.run(&["read", "card", "/SAVE"]).refused(Refusal::number(10));
    folder.run(&["get", "card", "none", "out"]).refused(Refusal::number(8));
    folder.run(&["get", "card", "/SAVE", "card"]).failed(3, "cannot write card");
    scribble::break_page(Raw, &mut image, OF_A[1]);
    folder.write("torn", &image);
    folder.run(&["read", "torn", "/SAVE/A"]).refused(Refusal::unreadable(OF_A[1]));
    folder.run(&["get", "torn", "/", "out"]).refused(Refusal::unreadable(OF_A[1]));
    scribble::break_page(Raw, &mut image, 26);
    folder.write("torn", &image);
    for words in [&["check", "torn"][..], &["list", "torn"], &["verify", "torn"], &["compare", "card", "torn"]] {
        folder.run(words).refused(Refusal::unreadable(26));
    }
    // The dead slot is written anew, and gets a fresh code; no change writes page 0 and the end of the table.
    assert_eq!(counted(&folder), 3);
    folder.run(&["mkdir", "card", "/NEW"]).done();
    assert_eq!(counted(&folder), 2);
    folder.run(&["rm", "-r", "card", "/SAVE"]).done();
    folder.run(&["put", "card", "SAVE"]).done();
    assert_eq!(counted(&folder), 2);
}

/// A file with unreadable pages is read in many pieces: each of its readable pages counts once all the same.
#[test]
fn files_in_pieces() {
    const PAGES: usize = 20;
    let folder = station();
    folder.write("file", &[3; 512 * PAGES]);
    folder.run(&["create", "card", "/F", "file"]).done();
    let mut image = folder.read("card");
    let first = Card::raw(&image).find(b"/F").expect("a file").first as usize;
    let start = 2 * (10 + first);
    flip(&mut image, 0, 0);
    (0..PAGES).for_each(|page| flip(&mut image, start + page, 1 + page % 3));
    let every: Vec<usize> = (0..PAGES).collect();
    let other: Vec<usize> = (0..PAGES).step_by(2).collect();
    for torn in [&[][..], &[0], &[19], &[3, 4, 11], &[0, 1, 2, 17, 18, 19], &other, &every] {
        let mut image = image.clone();
        torn.iter().for_each(|page| scribble::break_page(Raw, &mut image, start + page));
        folder.write("card", &image);
        let (status, line) = (i32::from(!torn.is_empty()), mended::line("card", 1 + PAGES - torn.len()));
        let given = folder.run(&["verify", "card"]);
        assert!(given.status == status && given.err.ends_with(&line), "{torn:?}: {given:?}");
        assert_eq!(given.err.lines().count(), torn.len() + 1);
        let given = folder.run(&["compare", "card", "card"]);
        assert_eq!((given.status, given.err), (status, line.repeat(2)), "{torn:?}");
    }
}

/// Standard error may be closed or full: nothing else depends on the line.
#[test]
fn unheard() {
    let folder = station();
    folder.write("card", &worn(&folder.read("card")));
    let expected = folder.run(&["verify", "card"]).mending("card", 6);
    for unheard in [Stdio::null(), fs::File::create("/dev/full").expect("a full device").into()] {
        let given = folder.command(&[b"verify", b"card"]).stderr(unheard).output().expect("it ends");
        assert_eq!((given.status.code(), given.stdout.as_slice()), (Some(0), &expected[..]));
    }
    // Whoever stops reading is not told either.
    let (reader, writer) = std::io::pipe().expect("a pipe");
    drop(reader);
    let given = folder.command(&[b"cat", b"card", b"/SAVE/A"]).stdout(writer).output().expect("it ends");
    assert_eq!((given.status.code(), given.stderr), (Some(3), Vec::new()));
}
