//! compare: the differences of two cards, by the independent reader's trees.

mod common;

use std::collections::{BTreeMap, BTreeSet};

use common::locked::lock_some;
use common::{mended, raw_stamp, unreadable_pages, Folder};
use reader::build::requests::random_change;
use reader::build::{self, random, samples, scribble};
use reader::rng::Rng;
use reader::tree::Checked;
use reader::Format::{Plain, Raw};
use reader::{page, Format, Item, Tree};

/// A card in its format.
type Card<'a> = (Format, &'a [u8]);

/// The lines that compare must print.
fn expected(cards: [Card; 2], bytes_only: bool) -> Vec<String> {
    let trees: [Tree; 2] = cards.map(|(format, image)| reader::tree(format, image).expect("an accepted card"));
    let unreadable: [BTreeMap<Vec<u8>, Vec<usize>>; 2] =
        cards.map(|(format, image)| unreadable_pages(format, image).into_iter().collect());
    let mut lines = Vec::new();
    let paths: BTreeSet<&Vec<u8>> = trees[0].keys().chain(trees[1].keys()).collect();
    for path in paths {
        let mut say = |words: String| lines.push(format!("{words} {}", String::from_utf8_lossy(path)));
        let (one, other) = match (trees[0].get(path), trees[1].get(path)) {
            (Some(one), Some(other)) => (one, other),
            (one, _) => {
                say(if one.is_some() { "missing" } else { "extra" }.to_string());
                continue;
            }
        };
        if one.is_directory != other.is_directory {
            let kind = |item: &Item| if item.is_directory { "directory" } else { "file" };
            say(format!("kind {} {}", kind(one), kind(other)));
        }
        if !bytes_only {
            if one.mode != other.mode {
                say(format!("mode 0x{:04x} 0x{:04x}", one.mode, other.mode));
            }
            if one.attribute != other.attribute {
                say(format!("attribute {} {}", one.attribute, other.attribute));
            }
            if one.created != other.created {
                say(format!("created {} {}", time(&one.created), time(&other.created)));
            }
            if one.modified != other.modified {
                say(format!("modified {} {}", time(&one.modified), time(&other.modified)));
            }
        }
        if one.is_directory || other.is_directory {
            continue;
        }
        for (letter, unreadable) in ["A", "B"].iter().zip(&unreadable) {
            unreadable[path].iter().for_each(|page| say(format!("unreadable {letter} {page}")));
        }
        if let (Some(one), Some(other)) = (one.bytes(), other.bytes()) {
            if one != other {
                let differ = (0..one.len().max(other.len())).find(|&at| one.get(at) != other.get(at));
                say(format!("bytes {}", differ.expect("a place")));
            }
        }
    }
    lines
}

fn time(time: &[u8; 8]) -> String {
    let [_, second, minute, hour, day, month, low, high] = *time;
    match reader::time::valid(time) {
        true => format!("{:04}-{month:02}-{day:02}T{hour:02}:{minute:02}:{second:02}", u16::from_le_bytes([low, high])),
        false => raw_stamp(time),
    }
}

/// What is said of chunks that were mended on each card: in its check, and in the files that both cards have.
fn worn(cards: [Card; 2]) -> String {
    let trees: [Tree; 2] = cards.map(|(format, image)| reader::tree(format, image).expect("an accepted card"));
    let is_file = |path: &[u8]| trees.iter().all(|tree| tree.get(path).is_some_and(|item| !item.is_directory));
    let chunks = |(format, image)| mended::in_check(format, image) + mended::in_files(format, image, is_file);
    mended::line("a", chunks(cards[0])) + &mended::line("b", chunks(cards[1]))
}

/// How the command is told which of the two is plain.
fn told(formats: [Format; 2]) -> &'static [&'static str] {
    match formats {
        [Raw, Raw] => &[],
        [Raw, Plain] => &["--plain-b"],
        [Plain, Raw] => &["--plain-a"],
        [Plain, Plain] => &["--plain"],
    }
}

/// Compares the two by the command, both ways of looking; the words that its lines begin with are counted.
fn judge(folder: &Folder, cards: [Card; 2], seen: &mut BTreeMap<String, usize>) {
    folder.write("a", cards[0].1);
    folder.write("b", cards[1].1);
    let formats = told(cards.map(|card| card.0));
    for bytes_only in [false, true] {
        let lines = expected(cards, bytes_only);
        let looking: &[&str] = if bytes_only { &["--bytes-only"] } else { &[] };
        let given = folder.run(&[&["compare", "a", "b"], looking, formats].concat());
        let text = String::from_utf8(given.out).expect("text");
        if lines.is_empty() {
            let tree = reader::tree(cards[0].0, cards[0].1).expect("accepted");
            let directories = tree.values().filter(|item| item.is_directory).count();
            let what = if bytes_only { "the same files and bytes" } else { "the same" };
            assert_eq!(text, format!("{what}: {} files, {directories} directories\n", tree.len() - directories));
        } else {
            assert_eq!(text.lines().collect::<Vec<_>>(), lines);
        }
        assert_eq!((given.status, given.err), (i32::from(!lines.is_empty()), worn(cards)));
        let word = |line: &String| line.split(' ').next().expect("a word").to_string();
        let same = if lines.is_empty() { vec!["same".to_string()] } else { Vec::new() };
        lines.iter().map(word).chain(same).for_each(|word| *seen.entry(word).or_default() += 1);
    }
}

/// A field of a random entry altered, or a page of a random file broken.
fn tamper(format: Format, image: &mut [u8], rng: &mut Rng) {
    let checked = Checked::of(format, image).expect("accepted");
    let (mut nodes, mut paths) = (Vec::new(), Vec::new());
    reader::content::visit(&checked.root, b"/", &mut |path, node| {
        nodes.push(node.clone());
        paths.push(path.to_vec());
    });
    let node = rng.pick(&nodes).clone();
    if node.inside.is_none() && rng.chance(1, 6) {
        // A directory where a file was.
        let file = paths[nodes.iter().position(|other| other.page == node.page).expect("it is there")].clone();
        reader::delete(format, image, &file).expect("a file");
        let _ = reader::make_dir(format, image, &file, &build::usual_time());
        return;
    }
    if node.inside.is_none() && node.entry.length > 0 && rng.chance(1, 2) {
        let pages = (node.entry.length as usize).div_ceil(page::DATA);
        let at = checked.card.slot_page(&node.chain, rng.below(pages));
        return match page::read(format, image, at) {
            Some(mut data) if rng.chance(1, 2) => {
                data[rng.below(page::DATA)] ^= 1 << rng.below(8);
                page::write(format, image, at, &data);
            }
            Some(_) => scribble::ruin(format, image, at, rng.below(4), rng),
            None => {}
        };
    }
    let mut data = page::read(format, image, node.page).expect("an entry is readable");
    match rng.below(4) {
        0 => data[1] ^= 4,
        1 => data[0x20 + rng.below(4)] ^= 1 << rng.below(8),
        2 => data[0x08 + rng.below(8)] ^= 1,
        _ => data[0x18 + rng.below(8)] ^= 1,
    }
    page::write(format, image, node.page, &data);
}

/// A raw card's image in a format; where a page is unreadable, the bytes that stand there.
fn in_format(format: Format, raw: &[u8]) -> Vec<u8> {
    let stored = |page: usize| raw[Raw.place(page)][..page::DATA].to_vec();
    let data = |page: usize| page::read(Raw, raw, page).map_or_else(|| stored(page), Vec::from);
    match format {
        Raw => raw.to_vec(),
        Plain => (0..raw.len() / Raw.page_bytes()).flat_map(data).collect(),
    }
}

/// A random raw card, not too large, on which nothing is locked.
fn card(seed: u64) -> Vec<u8> {
    let mut rng = Rng::new(seed);
    let mut image = random::sized(Raw, seed, 8 * rng.between(4, 24)).image;
    lock_some(Raw, &mut image, &mut rng, 0);
    image
}

#[test]
fn random_pairs() {
    let folder = Folder::new();
    for formats in [[Raw, Raw], [Plain, Plain], [Raw, Plain], [Plain, Raw]] {
        let (mut seen, seeds) = (BTreeMap::new(), if formats == [Raw, Raw] { 60 } else { 30 });
        for seed in 0..seeds {
            let mut rng = Rng::new(seed);
            let [image, mut other] = formats.map(|format| in_format(format, &card(seed)));
            for _ in 0..rng.below(5) {
                let tree = reader::tree(formats[1], &other).expect("accepted");
                let _ = random_change(&mut rng, &tree).apply(formats[1], &mut other);
            }
            for _ in 0..rng.below(5) {
                tamper(formats[1], &mut other, &mut rng);
            }
            judge(&folder, [(formats[0], &image), (formats[1], &other)], &mut seen);
        }
        // Two cards that have nothing to do with each other, and one beside itself.
        for seed in 60..70 {
            let [image, other] = [in_format(formats[0], &card(seed)), in_format(formats[1], &card(seed + 1))];
            judge(&folder, [(formats[0], &image), (formats[1], &other)], &mut seen);
        }
        let [image, other] = formats.map(|format| in_format(format, &samples::save()));
        judge(&folder, [(formats[0], &image), (formats[1], &other)], &mut seen);
        println!("{formats:?}: {seen:?}");
        for word in ["same", "missing", "extra", "kind", "mode", "attribute", "created", "modified", "bytes"] {
            assert!(seen.get(word).is_some_and(|&count| count > 1), "{word}: {seen:?}");
        }
        assert_eq!(seen.contains_key("unreadable"), formats.contains(&Raw), "{formats:?}: {seen:?}");
    }
}

/// An unreadable page is never the same, not even beside itself.
#[test]
fn unreadable_is_not_the_same() {
    let folder = Folder::new();
    let mut image = samples::save();
    scribble::break_page(Raw, &mut image, 2 * (10 + 4));
    folder.write("card", &image);
    for words in [&["compare", "card", "card"][..], &["compare", "card", "card", "--bytes-only"]] {
        let given = folder.run(words);
        let text = "unreadable A 28 /SAVE/A\nunreadable B 28 /SAVE/A\n";
        assert_eq!((given.status, given.out.as_slice(), given.err.as_str()), (1, text.as_bytes(), ""));
    }
}

/// A copy by get and put is the same in its bytes, and differs in its times.
#[test]
fn copied_card() {
    let folder = Folder::new();
    folder.write("card", &samples::shop());
    folder.run(&["new", "copy"]).done();
    folder.run(&["get", "card", "/", "all"]).done();
    for save in ["BESLES-00001GARDEN", "BESLES-00002RALLY", "SAVE"] {
        assert_eq!(folder.run(&["compare", "card", "copy", "--bytes-only"]).status, 1);
        folder.run(&["put", "copy", &format!("all/{save}")]).done();
    }
    let same = "the same files and bytes: 7 files, 4 directories\n";
    assert_eq!(folder.run(&["compare", "card", "copy", "--bytes-only"]).text(), same);
    let given = folder.feed(&[b"compare", b"-", b"copy"], &samples::shop());
    assert!(given.status == 1 && given.out.starts_with(b"created 2000-02-29T12:34:56 "), "{given:?}");
}

/// A card that is refused is not compared, and the refusal names it.
#[test]
fn refused_cards() {
    let folder = Folder::new();
    folder.write("card", &build::bench(Raw));
    folder.write("cut", &build::bench(Raw)[..5000]);
    for words in [["compare", "card", "cut"], ["compare", "cut", "card"]] {
        let given = folder.run(&words);
        assert!(given.err.ends_with(" (cut)\n"), "{given:?}");
        given.refused(reader::Refusal::number(1));
    }
    folder.run(&["compare", "card", "none"]).failed(3, "cannot read none");
    // What one option says is said of that image alone.
    folder.write("plain", &build::bench(Plain));
    for (words, end) in [
        (&["compare", "card", "plain"][..], "a plain card: say --plain-b (plain)\n"),
        (&["compare", "plain", "card"], "a plain card: say --plain-a (plain)\n"),
        (&["compare", "card", "plain", "--plain"], "a raw card: leave out --plain (card)\n"),
        (&["compare", "card", "plain", "--plain-a"], "a raw card: leave out --plain-a (card)\n"),
        (&["compare", "plain", "card", "--plain-b"], "a plain card: say --plain-a (plain)\n"),
    ] {
        let given = folder.run(words);
        assert!(given.err.ends_with(&format!("; its size is that of {end}")), "{words:?}: {given:?}");
        given.refused(reader::Refusal::number(1));
    }
    let same = "the same: 0 files, 1 directories\n";
    assert_eq!(folder.run(&["compare", "card", "plain", "--plain-b"]).text(), same);
    assert_eq!(folder.run(&["compare", "plain", "card", "--plain-a"]).text(), same);
    assert_eq!(folder.run(&["compare", "plain", "plain", "--plain-a", "--plain-b"]).text(), same);
}
