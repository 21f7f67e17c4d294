//! verify: every file read, with the sums that sha256sum gives, and every unreadable page named.

mod common;

use std::fs;

use common::{converted, mended, unreadable_pages, Folder};
use reader::build::{self, bad, random, scribble};
use reader::rng::Rng;
use reader::Format::{Plain, Raw};
use reader::{page, sha256, Format};

/// What verify must print of a card in the file `card`: its lines, and the pages that it names.
fn expected(format: Format, image: &[u8], prefix: &[u8]) -> (Vec<u8>, Vec<String>) {
    let (mut lines, mut pages) = (Vec::new(), Vec::new());
    let tree = reader::tree(format, image).expect("an accepted card");
    for (path, unreadable) in unreadable_pages(format, image) {
        match tree[&path].bytes() {
            Some(bytes) => {
                let name = [prefix, &path[1..]].concat();
                let escaped = String::from_utf8(name.clone()).expect("ASCII").replace('\\', "\\\\");
                let mark = if escaped.len() > name.len() { "\\" } else { "" };
                lines.extend(format!("{mark}{}  {escaped}\n", sha256::hex(&bytes)).bytes());
            }
            None => assert!(!unreadable.is_empty()),
        }
        for page in unreadable {
            pages.push(format!("refused 2 {page}: /{}", path[1..].escape_ascii()));
        }
    }
    (lines, pages)
}

/// The pages and paths that standard error names.
fn named(err: &str, image: &str) -> Vec<String> {
    let line = |line: &str| {
        let (start, rest) = line.split_once(": ").expect("a refusal");
        let path = rest.split_once(&format!(" ({image}: ")).expect("the image").1.strip_suffix(')').expect("a bracket");
        format!("{start}: {path}")
    };
    err.lines().map(line).collect()
}

/// Random cards, with more damage in their files: lines, pages and status are the independent reader's.
#[test]
fn random_cards() {
    let [whole, broken, sums, pages] = random_cards_of(Raw, 40);
    assert!(whole > 3 && broken > 10 && sums > 100 && pages > 100, "{whole} {broken} {sums} {pages}");
    let [whole, broken, sums, pages] = random_cards_of(Plain, 20);
    assert!((whole, broken, pages) == (20, 0, 0) && sums > 50, "{whole} {broken} {sums} {pages}");
}

fn random_cards_of(format: Format, cards: u64) -> [usize; 4] {
    let folder = Folder::of(format);
    let (mut whole, mut broken, mut sums, mut pages) = (0, 0, 0, 0);
    for seed in 0..cards {
        let mut rng = Rng::new(seed);
        let mut image = random::sized(format, seed, 8 * rng.between(4, 30)).image;
        let files = reader::tree::Checked::of(format, &image).expect("an accepted card");
        reader::content::visit(&files.root, b"/", &mut |_, node| {
            if node.inside.is_none() && rng.chance(1, 4) {
                for index in 0..(node.entry.length as usize).div_ceil(page::DATA) {
                    if rng.chance(1, 3) {
                        scribble::ruin(format, &mut image, files.card.slot_page(&node.chain, index), 1, &mut rng);
                    }
                }
            }
        });
        folder.write("card", &image);
        let (lines, unreadable) = expected(format, &image, b"");
        let given = folder.run(&["verify", "card"]);
        assert_eq!(given.out.escape_ascii().to_string(), lines.escape_ascii().to_string(), "seed {seed}");
        // At the end, what was mended: each readable page once, however often it was in the range of a read.
        let worn = mended::in_check(format, &image) + mended::in_files(format, &image, |_| true);
        let refusals = given.err.strip_suffix(&mended::line("card", worn));
        assert_eq!(refusals.map(|text| named(text, "card")).as_ref(), Some(&unreadable), "seed {seed}: {}", given.err);
        assert_eq!(given.status, i32::from(!unreadable.is_empty()), "seed {seed}");
        *(if unreadable.is_empty() { &mut whole } else { &mut broken }) += 1;
        sums += lines.iter().filter(|&&byte| byte == b'\n').count();
        pages += unreadable.len();
    }
    println!("{format:?}: {whole} whole cards, {broken} broken ones, {sums} sums, {pages} unreadable pages");
    [whole, broken, sums, pages]
}

/// The host's own sha256sum says the same of the copy, in the same lines; a changed copy is found.
#[test]
fn as_sha256sum() {
    let folder = Folder::new();
    let mut image = build::standard(Raw);
    let (time, mut rng) = (build::usual_time(), Rng::new(5));
    reader::make_dir(Raw, &mut image, b"/a b", &time).expect("room");
    for length in [0, 1, 55, 56, 57, 63, 64, 65, 119, 120, 128, 511, 512, 513, 1024, 4097, 100_000] {
        reader::create(Raw, &mut image, format!("/a b/{length}").as_bytes(), &time, &rng.bytes(length)).expect("room");
    }
    reader::create(Raw, &mut image, b"/back\\slash \\n", &time, b"odd").expect("room");
    folder.write("card", &image);
    folder.run(&["get", "card", "/", "out"]).done();
    let lines = folder.run(&["verify", "card"]).done();
    let files = reader::content::lines(Raw, &image).expect("an accepted card").into_iter();
    let mut paths: Vec<String> = files
        .filter(|line| !line.item.is_directory)
        .map(|line| String::from_utf8(line.path[1..].to_vec()).expect("text"))
        .collect();
    paths.insert(0, "--".to_string());
    let words: Vec<&str> = paths.iter().map(String::as_str).collect();
    let mut sums = std::process::Command::new("sha256sum");
    let sums = sums.current_dir(folder.path("out")).args(words).output().expect("sha256sum runs");
    assert!(sums.status.success());
    assert_eq!(String::from_utf8_lossy(&lines), String::from_utf8_lossy(&sums.stdout));
    folder.write("sums", &lines);
    let check = || {
        let mut command = std::process::Command::new("sha256sum");
        command
            .current_dir(folder.path("out"))
            .args(["--strict", "--quiet", "-c", "../sums"])
            .output()
            .expect("it runs")
    };
    let given = check();
    assert!(given.status.success() && given.stdout.is_empty(), "{given:?}");
    fs::write(folder.path("out/a b/4097"), b"other").expect("written");
    assert!(!check().status.success());
}

/// Several images, standard input among them: each is looked at, and one that fails does not hide the others.
#[test]
fn several_images() {
    let folder = Folder::new();
    let good = reader::build::samples::save();
    let bad = bad::all(Raw).into_iter().find(|card| card.refusal.number == 6).expect("a bad chain").image;
    let mut torn = good.clone();
    let page = 2 * (10 + 4);
    scribble::break_page(Raw, &mut torn, page);
    let (path, pages) = unreadable_pages(Raw, &torn).remove(0);
    assert_eq!((path.as_slice(), pages.as_slice()), (&b"/SAVE/A"[..], &[page][..]));
    for (name, image) in [("good", &good), ("bad", &bad), ("torn", &torn)] {
        folder.write(name, image);
    }
    let given = folder.feed(&[b"verify", b"good", b"bad", b"torn", b"-"], &good);
    let lines = [expected(Raw, &good, b"good/").0, expected(Raw, &good, b"-/").0].concat();
    assert_eq!((given.status, given.out), (1, lines));
    let errors: Vec<&str> = given.err.lines().collect();
    assert!(errors.len() == 2 && errors[0].starts_with("refused 6: ") && errors[0].ends_with(" (bad)"), "{errors:?}");
    assert!(
        errors[1].starts_with(&format!("refused 2 {page}: ")) && errors[1].ends_with(" (torn: /SAVE/A)"),
        "{errors:?}"
    );
    let given = folder.run(&["verify", "good", "none", "bad"]);
    assert!(given.status == 3 && given.err.contains("cannot read none") && given.err.contains("(bad)"), "{given:?}");
    assert_eq!(given.out, expected(Raw, &good, b"good/").0);

    let given = folder.feed(&[b"check", b"-", b"bad", b"good"], &torn);
    let counts = "card 56\nfree 24\nreached 6\norphaned 0\nheld 0\nmended 0\n";
    let text = format!("standard input: OK, 24 KB free\n{counts}good: OK, 24 KB free\n{counts}");
    assert_eq!((given.status, String::from_utf8(given.out).expect("text")), (1, text));
    assert!(given.err.starts_with("refused 6: ") && given.err.ends_with(" (bad)\n"), "{}", given.err);
}

/// With --plain every image is plain: a raw one among them is refused, and does not hide the others.
#[test]
fn several_plain_images() {
    let folder = Folder::of(Plain);
    let raw = reader::build::samples::save();
    let plain = converted(Plain, &raw);
    folder.write("raw", &raw);
    folder.write("plain", &plain);
    let given = folder.feed(&[b"verify", b"raw", b"plain", b"-"], &plain);
    let lines = [expected(Plain, &plain, b"plain/").0, expected(Plain, &plain, b"-/").0].concat();
    assert_eq!((given.status, given.out), (1, lines));
    assert!(given.err.starts_with("refused 1: ") && given.err.ends_with(" (raw)\n"), "{}", given.err);
    let given = folder.run(&["check", "raw", "plain"]);
    assert!(given.status == 1 && given.out.starts_with(b"plain: OK, 24 KB free\n"), "{given:?}");
}
