//! What the header declares: functions and constants beside the wrapper's, modes, and the stack that it promises.

#[path = "c/mod.rs"]
mod c;
mod common;

use std::collections::BTreeMap;
use std::fmt::Write;

use c::Way;
use common::Folder;
use ps2card::{Card, Entry, Format, Refusal, Stamp, MINUTES, MODE_BITS, MOST_BYTES, MOST_CLUSTERS};
use reader::build::{self, Assembly};

fn header() -> &'static str {
    include_str!("../../include/ps2card.h")
}

/// A declaration as one line of C.
fn as_c(rust: &str) -> String {
    let kind = |rust: &str| match rust {
        "*const u8" => "const uint8_t *",
        "*mut u8" => "uint8_t *",
        "*mut u16" => "uint16_t *",
        "*mut u32" => "uint32_t *",
        "*mut usize" => "size_t *",
        "usize" => "size_t ",
        "u32" => "uint32_t ",
        "i32" => "int32_t ",
        other => panic!("no C type for {other}"),
    };
    let (name, rest) = rust.split_once('(').expect("arguments");
    let (arguments, answer) = rest.rsplit_once(") -> ").expect("an answer");
    let mut text = format!("{}{}(", kind(answer), name.trim());
    for (place, argument) in arguments.split(',').filter(|argument| !argument.trim().is_empty()).enumerate() {
        let (name, rust) = argument.split_once(": ").expect("a type");
        write!(text, "{}{}{}", if place > 0 { ", " } else { "" }, kind(rust.trim()), name.trim()).expect("text");
    }
    text + ")"
}

/// The wrapper's declarations are the header's, names and order of the arguments included.
#[test]
fn declarations() {
    let one_line = |text: &str| text.split_whitespace().collect::<Vec<&str>>().join(" ");
    let calls = include_str!("../sys/src/lib.rs");
    let wrapper: Vec<String> =
        calls.split("pub fn ").skip(1).map(|text| as_c(text.split(';').next().expect("a declaration"))).collect();
    let (exported, _) = header().split_once("/* The same with structs. */").expect("two parts");
    let code = exported.split("*/").map(|part| part.split("/*").next().expect("code")).collect::<String>();
    let declared: Vec<String> = code
        .split(';')
        .filter_map(|part| {
            part.rfind("uint32_t ps2card_").or(part.rfind("size_t ps2card_")).map(|at| one_line(&part[at..]))
        })
        .collect();
    assert_eq!(declared, wrapper);
    assert_eq!(declared.len(), 12);
}

/// A name of the header as Rust spells it: `BAD_LENGTH` is `BadLength`.
fn in_rust(name: &str) -> String {
    let capital = |word: &str| word[..1].to_string() + &word[1..].to_lowercase();
    name.split('_').map(capital).collect()
}

/// The lines `PS2CARD_NAME = NUMBER` of an enum of the header.
fn numbers(name: &str) -> Vec<(&'static str, u32)> {
    let body = header().split(&format!("enum {name} {{")).nth(1).and_then(|rest| rest.split("};").next());
    let lines =
        body.expect("an enum").lines().filter_map(|line| line.trim().strip_prefix("PS2CARD_")?.split_once(" = "));
    lines
        .map(|(name, rest)| (name, rest.split([',', ' ']).next().expect("a number").parse().expect("a number")))
        .collect()
}

/// The header's refusals are the wrapper's, by number and name, in the order in which they are told; its version is the
/// package's, and its formats, largest cards and minutes the wrapper's.
#[test]
fn constants() {
    let refusals = numbers("ps2card_refusal");
    let order: Vec<u32> = refusals.iter().map(|refusal| refusal.1).collect();
    assert_eq!(order, [0, 17, 1, 2, 3, 4, 5, 6, 7, 8, 14, 9, 10, 11, 13, 15, 16, 12, 23]);
    for (name, number) in &refusals[1..] {
        let known = KNOWN.iter().find(|refusal| refusal.number() == *number).expect("a refusal of the wrapper");
        assert_eq!(in_rust(name), format!("{known:?}").split('(').next().expect("a name"));
    }
    let defined = |name: &str| {
        let rest = header().split_once(&format!("#define {name} ")).expect("a definition").1;
        rest.lines().next().expect("a value").to_string()
    };
    assert_eq!(defined("PS2CARD_VERSION"), format!("\"{}\"", env!("CARGO_PKG_VERSION")));
    let parts = env!("CARGO_PKG_VERSION").split('.').map(|part| part.parse::<usize>().expect("a number"));
    assert_eq!(defined("PS2CARD_VERSION_NUMBER"), parts.fold(0, |number, part| 100 * number + part).to_string());
    assert_eq!(numbers("ps2card_format"), [("RAW", ps2card_sys::RAW), ("PLAIN", ps2card_sys::PLAIN)]);
    for (format, prefix) in [(Format::Raw, "PS2CARD_"), (Format::Plain, "PS2CARD_PLAIN_")] {
        let cluster: usize = defined(&format!("{prefix}CLUSTER_BYTES")).parse().expect("a number");
        assert_eq!(cluster, format.cluster_bytes());
        let most = format!("(PS2CARD_MOST_CLUSTERS * {prefix}CLUSTER_BYTES)");
        assert_eq!(defined(&format!("{prefix}MOST_BYTES")), most);
        assert_eq!(format.most_bytes(), MOST_CLUSTERS * cluster);
    }
    assert_eq!(defined("PS2CARD_MOST_CLUSTERS"), MOST_CLUSTERS.to_string());
    assert_eq!(defined("PS2CARD_LEAST_MINUTES"), format!("({})", MINUTES.start()));
    assert_eq!(defined("PS2CARD_MOST_MINUTES"), MINUTES.end().to_string());
    assert_eq!(MOST_BYTES, Format::Raw.most_bytes().max(Format::Plain.most_bytes()));
}

/// The mode bits of what a change makes, as the header gives them; those that the wrapper names, and the one that is a
/// lock where it is clear.
#[test]
fn modes() {
    let time = Stamp(build::usual_time());
    let mut card = Card::raw(build::bench(reader::Format::Raw));
    card.make_dir(b"/D", &time).expect("room");
    card.create(b"/F", &time, b"").expect("room");
    let bit = |name: &str| {
        let rest = header().split_once(&format!("PS2CARD_MODE_{name} = 0x")).expect("a bit").1;
        u16::from_str_radix(&rest[..4], 16).expect("four digits")
    };
    let kinds = bit("EXISTS") | bit("FILE") | bit("DIRECTORY");
    for (path, kind, told) in
        [(b"/F", "FILE", "A new file has the mode 0x"), (b"/D", "DIRECTORY", "a new directory 0x")]
    {
        let entry = card.find(path).expect("an entry");
        let mode = entry.mode;
        assert_eq!((mode & kinds, entry.is_locked()), (bit("EXISTS") | bit(kind), false));
        assert!(header().contains(&format!("{told}{mode:x}")), "{mode:x}");
    }
    let declared = header().matches("    PS2CARD_MODE_").count();
    assert_eq!(declared, MODE_BITS.len());
    for (value, name) in MODE_BITS {
        assert_eq!(bit(&name.to_uppercase()), value);
    }
    for mode in 0..=u16::MAX {
        assert_eq!(Entry { mode, ..Entry::default() }.is_locked(), mode & bit("WRITE") == 0);
    }
}

const KNOWN: [Refusal; 18] = [
    Refusal::BadLength,
    Refusal::UnreadablePage(0),
    Refusal::BadText,
    Refusal::BadSuperblock,
    Refusal::BadTableName,
    Refusal::BadChain,
    Refusal::BadEntry,
    Refusal::BadPath,
    Refusal::Absent,
    Refusal::WrongKind,
    Refusal::Exists,
    Refusal::NoRoom,
    Refusal::NotEmpty,
    Refusal::BadTime,
    Refusal::BadOffset,
    Refusal::Locked,
    Refusal::BadShift,
    Refusal::WrongOutput,
];

/// The bytes of stack that the header gives for a function.
fn promised(name: &str) -> usize {
    let (before, _) = header().split_once(&format!(" ps2card_{name}(")).expect("a declaration");
    let figure = before.rsplit("Stack: at most ").next().expect("a figure");
    let kibibytes: usize = figure.split(" KiB.").next().expect("a figure").replace(',', "").parse().expect("a number");
    1024 * kibibytes
}

/// What builds a card.
type Build = fn(reader::Format) -> Vec<u8>;

/// Puts directories on every level, files in the deepest one and an empty directory beside it.
fn deepen(format: reader::Format, image: &mut [u8]) {
    let time = build::usual_time();
    let deepest = b"/a/b/c/d/e/f/g";
    for path in (1..=7).map(|names| &deepest[..2 * names]).chain([&b"/a/b/c/d/e/f/empty"[..]]) {
        reader::make_dir(format, image, path, &time).expect("room");
    }
    reader::create(format, image, b"/a/b/c/d/e/f/g/file", &time, &[1; 5000]).expect("room");
    reader::create(format, image, b"/a/b/c/d/e/f/g/filf", &time, &[]).expect("room");
}

/// Gives the last file in the deepest directory the name of the one before it, so that the check compares them there.
fn same_name(format: reader::Format, image: &mut [u8]) {
    let mut place = None;
    let checked = reader::tree::Checked::of(format, image).expect("accepted");
    reader::content::visit(&checked.root, b"/", &mut |path, node| {
        if path == b"/a/b/c/d/e/f/g/filf" {
            place = Some(node.page);
        }
    });
    let page = place.expect("a file");
    let mut data = reader::page::read(format, image, page).expect("readable");
    data[0x43] = b'e';
    reader::page::write(format, image, page, &data);
}

/// No function uses more stack than the header says: on full and on deep cards, small and of the largest size, accepted
/// and refused at the deepest entry, in both formats.
#[test]
fn stack() {
    let folder = Folder::new();
    let program = c::compiled(&folder, c::test("stack"), Way::C99);
    let cards: [(&str, Build); 6] = [
        ("bench", build::bench),
        ("standard", build::standard),
        ("crowded", build::crowded),
        ("largest", |format| Assembly::with_root(format, common::largest()).finish()),
        ("60,000 entries", |format| common::converted(format, &common::crowd(60_000))),
        ("a name twice", build::standard),
    ];
    let mut most = BTreeMap::new();
    for (format, (card, make)) in reader::Format::BOTH.into_iter().flat_map(|format| cards.map(|card| (format, card))) {
        let mut image = make(format);
        deepen(format, &mut image);
        if card == "a name twice" {
            same_name(format, &mut image);
        }
        folder.write("card", &image);
        let words: &[&str] = if format == reader::Format::Plain { &["--plain", "card"] } else { &["card"] };
        let text = program.run(&folder, words).text();
        assert_eq!(text.lines().count(), 12);
        for line in text.lines() {
            let words: Vec<&str> = line.split(' ').collect();
            let (name, number, used) = (words[0], words[1], words[2].parse::<usize>().expect("a number"));
            let expected = match (card, name) {
                ("bench", "create" | "replace") => "12",
                ("a name twice", name) if !["list", "to_plain", "to_raw"].contains(&name) => "7",
                _ => "0",
            };
            assert_eq!(number, expected, "{format:?} {card}: {line}");
            assert!(used <= promised(name), "{format:?} {card}: {line}, promised {}", promised(name));
            let most = most.entry(name.to_string()).or_insert((0, card));
            *most = (used, card).max(*most);
        }
    }
    most.iter().for_each(|(name, (used, card))| println!("{name} {used} bytes ({card})"));
}
