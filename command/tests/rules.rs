//! What the header says in words, beside the calls that show it; and what README says of the program `list`.

use std::fs::{self, File, OpenOptions};
use std::path::{Path, PathBuf};
use std::process::{Command, Output, Stdio};

use ps2card::{Card, Format, Refusal, Stamp, MOST_BYTES};
use reader::build;

/// The repository.
fn home() -> PathBuf {
    Path::new(env!("CARGO_MANIFEST_DIR")).join("..")
}

fn time() -> Stamp {
    Stamp(build::usual_time())
}

fn in_reader(format: Format) -> reader::Format {
    match format {
        Format::Raw => reader::Format::Raw,
        Format::Plain => reader::Format::Plain,
    }
}

fn fresh() -> Card {
    Card::fresh(Format::Raw, 56, &time()).expect("a fresh card")
}

/// The words stand in a text, wherever its lines are broken.
#[track_caller]
fn says(file: &str, words: &str) {
    let text = fs::read_to_string(home().join(file)).expect("a text");
    let plain = text.replace("\n *", " ").split_whitespace().collect::<Vec<_>>().join(" ");
    assert!(plain.contains(words), "{file} no longer says: {words}");
}

const HEADER: &str = "include/ps2card.h";

#[test]
fn lengths() {
    says(
        HEADER,
        "A card has 32 to 65,536 clusters, in steps of 8: an image of any other length than 1,056 bytes for each of them, or 1,024 where it is plain, is refused.",
    );
    let image = vec![0; 65_552 * 1_056 + 1];
    for (format, bytes) in [(Format::Raw, 1_056), (Format::Plain, 1_024)] {
        let length_is_bad = |bytes: usize| {
            let refused = Card::new(format, &image[..bytes]).check() == Err(Refusal::BadLength);
            assert_eq!(refused, !format.is_length(bytes), "{format} {bytes}");
            refused
        };
        for clusters in 0..=65_552 {
            let allowed = clusters % 8 == 0 && (32..=65_536).contains(&clusters);
            assert_eq!(length_is_bad(clusters * bytes), !allowed, "{clusters} clusters");
            assert!(length_is_bad(clusters * bytes + 1), "{clusters} clusters and a byte");
        }
    }
}

/// Some lengths are a card's in both formats, as the header says; the call goes by what it is told.
#[test]
fn lengths_of_both() {
    says(HEADER, "It is never guessed: some lengths are a card's in both.");
    let both = (0..=MOST_BYTES).step_by(512).filter(|&bytes| Format::ALL.iter().all(|format| format.is_length(bytes)));
    let both: Vec<usize> = both.collect();
    assert_eq!((both.len(), both[0], both[0] / 1_056, both[0] / 1_024), (248, 270_336, 256, 264));
    let plain = Card::fresh(Format::Plain, 264, &time()).expect("a fresh card");
    let raw = Card::fresh(Format::Raw, 256, &time()).expect("a fresh card");
    assert_eq!((plain.image().len(), raw.image().len()), (both[0], both[0]));
    assert!(plain.check().is_ok() && raw.check().is_ok());
    assert_eq!(Card::raw(plain.image()).check(), Err(Refusal::UnreadablePage(0)));
    assert_eq!(Card::plain(raw.image()).check(), Err(Refusal::BadSuperblock));
}

#[test]
fn names() {
    says(
        HEADER,
        r#"A name has 1 to 31 bytes from 0x20 to 0x7E, none of them * / or ?, and is neither "." nor "..". Names are compared whole: case and blanks count."#,
    );
    let create = |path: &[u8]| fresh().create(path, &time(), b"");
    for byte in 0..=255 {
        let expected = match byte {
            b'/' => Err(Refusal::Absent),
            b'*' | b'?' => Err(Refusal::BadPath),
            0x20..=0x7E => Ok(()),
            _ => Err(Refusal::BadPath),
        };
        assert_eq!(create(&[b'/', b'a', byte, b'b']), expected, "byte {byte}");
    }
    for length in 0..40 {
        let expected = if (1..=31).contains(&length) { Ok(()) } else { Err(Refusal::BadPath) };
        assert_eq!(create(&[&b"/"[..], &vec![b'a'; length]].concat()), expected, "{length} bytes");
    }
    assert_eq!([&b"/."[..], b"/..", b"", b"a", b"//", b"/a/"].map(create), [Err(Refusal::BadPath); 6]);
    let mut card = fresh();
    for path in [&b"/a"[..], b"/A", b"/a ", b"/ a"] {
        card.create(path, &time(), b"").expect("another name");
    }
    assert_eq!(card.create(b"/a ", &time(), b""), Err(Refusal::Exists));
}

#[test]
fn depths() {
    says(HEADER, r#""/" alone, or one to eight names, each after a "/"."#);
    says(HEADER, "Directories have one to seven names, files one to eight. So a path has no more than 256 bytes.");
    let path = |names: usize| [b"/", &[b'n'; 31][..]].concat().repeat(names);
    let mut card = fresh();
    for names in 1..=7 {
        card.make_dir(&path(names), &time()).expect("a directory");
    }
    assert_eq!(card.make_dir(&path(8), &time()), Err(Refusal::BadPath));
    assert_eq!((card.create(&path(8), &time(), b""), path(8).len()), (Ok(()), 256));
    assert_eq!(card.create(&path(9), &time(), b""), Err(Refusal::BadPath));
    assert_eq!(card.find(&path(9)), Err(Refusal::BadPath));
    assert!(card.find(b"/").is_ok() && card.find(&path(8)).is_ok());
}

/// A file takes what is free, beside the cluster that the root grows by, and no byte more.
#[test]
fn room() {
    says(
        HEADER,
        "A card of 8,192 clusters has a reserved tail, as on consoles: its allocatable clusters from index 8,000 on.",
    );
    says(HEADER, "No other card has a tail.");
    for (clusters, free, held) in [(56, 29, 0), (8_184, 8_126, 0), (8_192, 7_999, 135), (8_200, 8_142, 0)] {
        let mut card = Card::fresh(Format::Plain, clusters, &time()).expect("a fresh card");
        let told = |card: &Card| card.check().map(|counts| (counts.free, counts.reached, counts.held));
        assert_eq!(told(&card), Ok((free, 1, held)));
        let bytes = vec![7; (free - 1) * 1_024 + 1];
        assert_eq!(card.create(b"/A", &time(), &bytes), Err(Refusal::NoRoom));
        assert_eq!(card.create(b"/A", &time(), &bytes[1..]), Ok(()));
        assert_eq!(told(&card), Ok((0, free + 1, held)));
        assert_eq!((card.delete(b"/A"), told(&card)), (Ok(()), Ok((free - 1, 2, held))));
    }
}

/// Nothing new in a listed block, in either format: here block 3 of the bench card, its allocatable clusters 14 to 21.
#[test]
fn bad_blocks() {
    says(
        HEADER,
        "Every card lists its bad erase blocks, of 8 clusters each, in 32 words at 0xD0 of its first page, 0xFFFFFFFF for none.",
    );
    says(HEADER, "No change takes a new cluster in the tail or in a listed block");
    for format in Format::ALL {
        let card = |place: usize, block: u32| {
            let mut card = build::Assembly::with_root(in_reader(format), build::Layout::bench());
            card.superblock[0xD0 + 4 * place..][..4].copy_from_slice(&block.to_le_bytes());
            Card::new(format, card.finish())
        };
        for place in 0..32 {
            let mut card = card(place, 3);
            let told = |card: &Card| card.check().map(|counts| (counts.free, counts.reached, counts.held));
            assert_eq!(told(&card), Ok((21, 1, 8)), "word {place}");
            let bytes = vec![7; 20 * 1_024 + 1];
            assert_eq!(card.create(b"/A", &time(), &bytes), Err(Refusal::NoRoom));
            assert_eq!(card.create(b"/A", &time(), &bytes[1..]), Ok(()));
            assert_eq!(told(&card), Ok((0, 22, 8)));
            assert_eq!((card.delete(b"/A"), told(&card)), (Ok(()), Ok((20, 2, 8))));
        }
        for place in 0..32 {
            let told = [0, 1, 2, 6, 7, u32::MAX - 1].map(|block| card(place, block).check().err());
            let (four, five) = (Some(Refusal::BadSuperblock), Some(Refusal::BadTableName));
            assert_eq!(told, [four, five, None, None, four, four], "word {place}");
        }
        // The word after the list is none of it.
        assert!(card(32, 7).check().is_ok());
    }
}

/// A wrong bit in each page of a card by itself: which pages count in the calls that tell the count.
#[test]
fn mended_pages() {
    says(
        HEADER,
        "All calls that tell the count need the pages that the check needs: page 0, both pages of the indirect cluster and of every cluster of the table, and the page of every entry of every directory, its first two and dead ones too. A read also needs the pages that it copies from. On a plain image the count is 0.",
    );
    let mut card = fresh();
    card.create(b"/f", &time(), &[7; 600]).expect("a file");
    card.create(b"/dead", &time(), b"").expect("a file");
    card.delete(b"/dead").expect("a file");
    // The superblock, the indirect cluster, the table, the root with its four slots in two clusters, of which one is
    // dead; then the file, of which a read of its last 100 bytes copies from the second page alone.
    let (check, file, last) = ([0, 16, 17, 18, 19, 20, 21, 22, 23], [24, 25], [25]);
    for page in 0..112 {
        let mut worn = card.clone().into_image();
        worn[528 * page + 300] ^= 0x10;
        let worn = Card::raw(worn);
        let by_check = usize::from(check.contains(&page));
        assert_eq!(worn.check().expect("a card").mended, by_check, "page {page}");
        assert_eq!(worn.find_mended(b"/f").expect("a file").chunks, by_check, "page {page}");
        let steps = [2, 3].map(|slot| worn.step_mended(b"/", slot).expect("the root"));
        assert_eq!(steps.map(|step| (step.answer.is_some(), step.chunks)), [(true, by_check), (false, by_check)]);
        let read = |offset: usize, most: usize| worn.bytes_mended(b"/f", offset, most).expect("a file").chunks;
        assert_eq!(read(0, 600), by_check + usize::from(file.contains(&page)), "page {page}");
        assert_eq!(read(512, 100), by_check + usize::from(last.contains(&page)), "page {page}");
        assert_eq!([read(600, 100), read(0, 0)], [by_check; 2], "page {page}");
        let plain = worn.to_plain().expect("readable pages");
        assert_eq!((plain.check().expect("a card").mended, plain.list()), (0, card.list()));
    }
}

#[test]
fn times() {
    says(HEADER, "zero, second, minute, hour, day, month, year in two bytes, low one first");
    says(HEADER, "a date that the calendar has, of the years 1980 to 9999. Cards hold Japan's time (UTC+9, all year)");
    let stamp = |day: u8, month: u8, year: u16| Stamp([0, 59, 59, 23, day, month, year as u8, (year >> 8) as u8]);
    let create = |time: Stamp| fresh().create(b"/a", &time, b"").is_ok();
    for year in [0, 1979, 1980, 2026, 9999, 10_000, u16::MAX] {
        assert_eq!(create(stamp(1, 1, year)), (1980..=9999).contains(&year), "{year}");
    }
    assert_eq!([2000, 2100, 2004, 2001].map(|year| create(stamp(29, 2, year))), [true, false, true, false]);
    assert_eq!(fresh().create(b"/a", &Stamp([1; 8]), b""), Err(Refusal::BadTime));
}

#[test]
fn listing() {
    let counts = ["card CLUSTERS", "free COUNT", "reached COUNT", "orphaned COUNT", "held COUNT", "mended COUNT"];
    let entries = ["d ENTRIES PATH YYYY-MM-DD hh:mm:ss", "f BYTES PATH YYYY-MM-DD hh:mm:ss"];
    let lines: Vec<&str> = counts.into_iter().chain(entries).collect();
    lines.iter().for_each(|line| says(HEADER, line));
    says(HEADER, "Such a line has no more than 290 bytes, its newline included.");
    let longest = format!("f {} {} 2000-02-29 12:34:56\n", u32::MAX, "/".to_string() + &"n".repeat(255));
    assert_eq!(longest.len(), 290);
    let mut card = fresh();
    card.make_dir(b"/d", &time()).expect("a directory");
    card.create(b"/d/f", &time(), b"four").expect("a file");
    let text = String::from_utf8(card.list().expect("a listing")).expect("text");
    assert!(text.ends_with('\n'));
    let told: Vec<Vec<&str>> = text.lines().map(|line| line.split(' ').collect()).collect();
    let words: Vec<Vec<&str>> = lines.iter().map(|line| line.split(' ').collect()).collect();
    assert_eq!(told.len(), words.len());
    for (told, words) in told.iter().zip(&words) {
        assert_eq!((told[0], told.len()), (words[0], words.len()));
    }
    assert_eq!(told[6][1..], ["3", "/d", "2000-02-29", "12:34:56"]);
    assert_eq!(told[7][1..], ["4", "/d/f", "2000-02-29", "12:34:56"]);
}

/// Every number of minutes around those that are taken; where one is not, nothing else is judged.
#[test]
fn minutes() {
    says(HEADER, "-1,260 to 300, so that every zone from UTC-12 to UTC+14 has its own.");
    says(HEADER, "It is the zone's minutes ahead of UTC less 540: 0 is Japan, -540 is UTC itself.");
    says(HEADER, "Refusals: 17 before all others, whatever format and image are; 1 to 7.");
    let mut card = fresh();
    card.create(b"/a", &time(), b"").expect("a file");
    let none = Card::plain(&b""[..]);
    let far = [i32::MIN, -86_400, 1_260, 86_400, i32::MAX];
    for minutes in (-1_400..=1_400).chain(far) {
        let taken = (-1_260..=300).contains(&minutes);
        assert_eq!(card.list_at(minutes).err(), (!taken).then_some(Refusal::BadShift), "{minutes}");
        let refusal = if taken { Refusal::BadLength } else { Refusal::BadShift };
        assert_eq!(none.list_at(minutes), Err(refusal), "{minutes}");
    }
    let at = |minutes: i32| card.tree_at(minutes).expect("a tree")[0].modified.map(|time| time.to_string());
    let told = [0, -540, -1_260, 300].map(at);
    let times = ["2000-02-29 12:34:56", "2000-02-29 03:34:56", "2000-02-28 15:34:56", "2000-02-29 17:34:56"];
    assert_eq!(told, times.map(|time| Some(time.to_string())));
}

/// The proved program, as `rt run` in its folder and `rt ci` build it.
fn list(input: Stdio, output: Stdio) -> Output {
    let program = home().join("crates/list/out/list");
    assert!(program.exists(), "{} is missing: rt run in crates/list builds it", program.display());
    let run = Command::new(program).stdin(input).stdout(output).spawn().expect("a run");
    run.wait_with_output().expect("an end")
}

/// Its exit status is 0 whatever it prints, and tells of nothing but reads and writes that fail, as README says.
#[test]
fn list_tells_no_refusal_by_its_status() {
    says(
        "README.md",
        "Its exit status is 0 whatever it prints, a refusal too; a read or a write that fails is status 1",
    );
    let sample = home().join("samples/bench.ps2");
    let image = fs::read(&sample).expect("a card");
    let of = |file: &Path| Stdio::from(File::open(file).expect("a file"));

    let whole = list(of(&sample), Stdio::piped());
    assert_eq!((whole.status.code(), whole.stdout), (Some(0), Card::raw(&image[..]).list().expect("a listing")));

    // A folder can be opened but not read.
    let unread = list(of(&home()), Stdio::piped());
    assert_eq!((unread.status.code(), &unread.stdout[..]), (Some(1), &b""[..]));

    // Cut where another card could end, and elsewhere.
    let cut = std::env::temp_dir().join(format!("ps2card-cut-{}.ps2", std::process::id()));
    for (bytes, line) in [(48 * 1_056, &b"refused 4\n"[..]), (48 * 1_056 + 1, b"refused 1\n")] {
        fs::write(&cut, &image[..bytes]).expect("a file");
        let short = list(of(&cut), Stdio::piped());
        assert_eq!((short.status.code(), &short.stdout[..]), (Some(0), line));
    }
    fs::remove_file(&cut).expect("a file to remove");

    let full = OpenOptions::new().write(true).open("/dev/full").expect("a full device");
    assert_eq!(list(of(&sample), Stdio::from(full)).status.code(), Some(1));
}
