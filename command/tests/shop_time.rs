//! Listings in the shop's own time: `list` and `ls` with --minutes and --zone, against the reader and by hand.

mod common;

use common::{in_wrapper, Folder, Outcome, USUAL};
use ps2card::{Card, Refusal as Told};
use reader::build::{self, directory, file, Assembly, Layout};
use reader::entry::{Entry, NO_CLUSTER};
use reader::time::{stamp, Time};
use reader::{Format, Refusal};

/// The same shift by both options: Japan, UTC and both ends.
const SHIFTS: [(i32, &str); 4] = [(0, "+09:00"), (-540, "+00:00"), (-1260, "-12:00"), (300, "+14:00")];

/// What is listed of the usual time at each of them.
const USUAL_AT: [&str; 4] =
    ["2000-02-29 12:34:56", "2000-02-29 03:34:56", "2000-02-28 15:34:56", "2000-02-29 17:34:56"];

/// Files with their times, on a leap day's end, at both ends and invalid, and what is listed of them; the names of two
/// end like a line.
fn files() -> [(&'static str, Time, [&'static str; 4]); 6] {
    let leap = ["2000-03-01 08:59:59", "2000-02-29 23:59:59", "2000-02-29 11:59:59", "2000-03-01 13:59:59"];
    let first = ["1980-01-01 00:00:00", "unknown", "unknown", "1980-01-01 05:00:00"];
    let last = ["9999-12-31 23:59:59", "9999-12-31 14:59:59", "9999-12-31 02:59:59", "unknown"];
    [
        ("leap", stamp(2000, 3, 1, 8, 59, 59), leap),
        ("first", stamp(1980, 1, 1, 0, 0, 0), first),
        ("last", stamp(9999, 12, 31, 23, 59, 59), last),
        ("none", stamp(2000, 13, 1, 0, 0, 0), ["unknown"; 4]),
        ("A unknown", build::usual_time(), USUAL_AT),
        ("B 1999-12-31 23:59:59", [0xFF; 8], ["unknown"; 4]),
    ]
}

/// A card with these files in `/SAVE`.
fn card(format: Format) -> Vec<u8> {
    let (mut card, files) = (Assembly::new(format, Layout::bench()), files());
    let length = files.len() as u32 + 2;
    let chain: Vec<usize> = (2..2 + files.len().div_ceil(2) + 1).collect();
    card.directory(&[0, 1], 3);
    card.put(1, 0, &directory(b"SAVE", length, chain[0] as u32));
    card.directory(&chain, length);
    for (place, (name, modified, _)) in files.into_iter().enumerate() {
        let entry = Entry { modified, ..file(name.as_bytes(), 0, NO_CLUSTER) };
        card.put(chain[1 + place / 2], place % 2, &entry);
    }
    card.finish()
}

/// A folder with this card.
fn station(format: Format) -> Folder {
    let folder = Folder::of(format);
    folder.write("card", &card(format));
    folder
}

/// A run with a shift, which is said in one of these ways.
fn shifted(folder: &Folder, words: &[&str], shift: &[&str]) -> Outcome {
    folder.run(&[words, shift].concat())
}

#[test]
fn both_ends_by_hand() {
    for format in Format::BOTH {
        let folder = station(format);
        let counts = "card 56\nfree 24\nreached 6\norphaned 0\nheld 0\nmended 0\n";
        for (place, (minutes, zone)) in SHIFTS.into_iter().enumerate() {
            let mut text = format!("{counts}d 8 /SAVE {}\n", USUAL_AT[place]);
            files().iter().for_each(|(name, _, times)| text += &format!("f 0 /SAVE/{name} {}\n", times[place]));
            let minutes = minutes.to_string();
            for shift in [["--minutes", &minutes], ["--zone", zone]] {
                assert_eq!(shifted(&folder, &["list", "card"], &shift).text(), text);
            }
            if place == 0 {
                assert_eq!(folder.run(&["list", "card"]).text(), text);
            }
        }
    }
}

/// Zones and minutes say the same in all their forms, and it is what the reader says.
#[test]
fn zones_and_minutes() {
    for format in Format::BOTH {
        let (folder, image) = (station(format), card(format));
        let odd =
            [(-210, "+05:30"), (-750, "-03:30"), (225, "+12:45"), (-540, "-00:00"), (-480, "+01:00"), (1, "+09:01")];
        for (minutes, zone) in SHIFTS.into_iter().chain(odd) {
            let text = reader::list(format, &image, minutes);
            let both = [format!("--minutes={minutes}"), format!("--zone={zone}")];
            let [number, signed] = [minutes.to_string(), format!("{minutes:+}")];
            let ways =
                [&["--minutes", &*number][..], &["--minutes", &*signed], &["--zone", zone], &[&*both[0]], &[&*both[1]]];
            let rows = shifted(&folder, &["ls", "card", "/SAVE"], ways[0]).text();
            for way in ways {
                assert_eq!(shifted(&folder, &["list", "card"], way).text(), text, "{way:?}");
                assert_eq!(shifted(&folder, &["ls", "card", "/SAVE"], way).text(), rows, "{way:?}");
            }
        }
        for minutes in (-1260..=300).step_by(53) {
            let text = shifted(&folder, &["list", "card"], &["--minutes", &minutes.to_string()]).text();
            assert_eq!(text, reader::list(format, &image, minutes), "{minutes}");
        }
    }
}

/// Other shifts are refused with 17, before whatever else is wrong with the card or the path.
#[test]
fn refused() {
    let minutes = ["-1261", "301", "1260", "2147483647", "-2147483648", "2147483648", "-99999999999999999999"];
    let zones = ["-12:01", "+14:01", "-23:59", "+23:59"];
    let shifts = minutes.map(|minutes| ["--minutes", minutes]).into_iter().chain(zones.map(|zone| ["--zone", zone]));
    for shift in shifts {
        for format in Format::BOTH {
            let (folder, image) = (station(format), card(format));
            folder.write("none", b"no card");
            folder.write("empty", b"");
            folder.write("other", &build::bench(format.other()));
            for name in ["card", "none", "empty", "other"] {
                for words in
                    [&["list", name][..], &["ls", name], &["ls", name, "no path"], &["ls", "-l", name, "/none"]]
                {
                    let given = shifted(&folder, words, &shift);
                    let end = format!("behind Japan to 300 minutes ahead (zones -12:00 to +14:00) ({name})\n");
                    assert!(given.err.ends_with(&end), "{given:?}");
                    given.refused(Refusal::number(17));
                }
            }
            assert_eq!(folder.read("card"), image);
        }
    }
    // A shift that is none of them leaves the others in their order.
    let folder = station(Format::Raw);
    folder.write("none", b"no card");
    shifted(&folder, &["list", "none"], &["--minutes", "300"]).refused(Refusal::number(1));
    shifted(&folder, &["ls", "none", "x"], &["--zone", "-12:00"]).refused(Refusal::number(1));
    shifted(&folder, &["ls", "card", "x"], &["--zone", "-12:00"]).refused(Refusal::number(8));
    shifted(&folder, &["ls", "card", "/x"], &["--zone", "-12:00"]).refused(Refusal::number(9));
    shifted(&folder, &["ls", "card", "/SAVE/leap/x"], &["--zone", "-12:00"]).refused(Refusal::number(10));
}

/// Text of another form, both options, and commands that take neither.
#[test]
fn wrong_usage() {
    let folder = station(Format::Raw);
    let minutes = ["", "x", "1.5", "--plain", "+", "-", "1h", " 1", "0x10", "99999999999999999999x", "+09:00"];
    let zones =
        ["", "x", "0", "-540", "09:00", "+9:00", "+0900", "+09", "+24:00", "+09:60", "+09:00 ", "UTC", "JST", "Z"];
    let bad = minutes.map(|text| ["--minutes", text]).into_iter().chain(zones.map(|text| ["--zone", text]));
    for shift in bad {
        for words in [["list", "card"], ["ls", "card"], ["list", "missing"]] {
            let given = shifted(&folder, &words, &shift);
            let (told, usage) = (format!("ps2card: {} takes ", shift[0]), format!("\nusage: ps2card {} ", words[0]));
            assert!(given.err.starts_with(&told) && given.err.contains(&format!(", not {}\n", shift[1])), "{given:?}");
            given.failed(2, &usage);
        }
    }
    let both = ["--minutes", "0", "--zone", "+09:00"];
    shifted(&folder, &["list", "card"], &both).failed(2, "--minutes and --zone");
    shifted(&folder, &["ls", "card"], &both).failed(2, "\nusage: ps2card ls ");
    shifted(&folder, &["list", "card"], &["--minutes"]).failed(2, "--minutes needs a value");
    shifted(&folder, &["ls", "card"], &["--zone"]).failed(2, "--zone needs a value");
    for command in ["check", "verify"] {
        shifted(&folder, &[command, "card"], &["--minutes", "0"]).failed(2, "takes no --minutes");
        shifted(&folder, &[command, "card"], &["--zone", "+09:00"]).failed(2, "takes no --zone");
    }
    // The last one counts, as of every option.
    let last = shifted(&folder, &["list", "card"], &["--minutes", "7", "--minutes", "0"]);
    assert_eq!(last.text(), folder.run(&["list", "card"]).text());
}

/// For people: the column is there where -l or a zone is asked for, and as wide as what stands in it.
#[test]
fn columns() {
    for format in Format::BOTH {
        let folder = station(format);
        let rows = |place: usize| {
            let row =
                |(name, _, times): &(&str, Time, [&str; 4])| format!("file  0 bytes  {:19}  {name}\n", times[place]);
            files().iter().map(row).collect::<String>()
        };
        assert_eq!(folder.run(&["ls", "card", "/SAVE", "-l"]).text(), rows(0));
        for (place, (_, zone)) in SHIFTS.into_iter().enumerate() {
            assert_eq!(shifted(&folder, &["ls", "card", "/SAVE"], &["--zone", zone]).text(), rows(place));
            assert_eq!(shifted(&folder, &["ls", "-l", "card", "/SAVE"], &["--zone", zone]).text(), rows(place));
            let all = format!("dir   6 entries  {}  SAVE\n", USUAL_AT[place]);
            assert_eq!(shifted(&folder, &["ls", "card"], &["--zone", zone]).text(), all);
            for (name, _, times) in files() {
                let one = shifted(&folder, &["ls", "card", &format!("/SAVE/{name}")], &["--zone", zone]).text();
                assert_eq!(one, format!("file  0 bytes  {}  {name}\n", times[place]));
            }
        }
        assert_eq!(folder.run(&["ls", "card"]).text(), "dir   6 entries  SAVE\n");
        assert_eq!(folder.run(&["ls", "card", "/SAVE/none"]).text(), "file  0 bytes  none\n");
        assert_eq!(folder.run(&["ls", "card", "/SAVE/none", "-l"]).text(), "file  0 bytes  unknown  none\n");
        folder.run(&["mkdir", "card", "/E", "--stamp", USUAL]).done();
        assert_eq!(shifted(&folder, &["ls", "card", "/E"], &["--minutes", "0"]).text(), "/E is empty\n");
    }
}

/// The host's own zone has no part in it.
#[test]
fn the_host_zone() {
    let folder = station(Format::Raw);
    for words in [&[&b"list"[..], b"card"][..], &[b"ls", b"-l", b"card"], &[b"list", b"card", b"--zone", b"+01:00"]] {
        let here = folder.feed(words, b"").done();
        for zone in ["UTC", "America/New_York", "XYZ-14"] {
            let output = folder.command(words).env("TZ", zone).output().expect("it ends");
            assert_eq!(Outcome::of(output).done(), here, "{zone}");
        }
    }
}

/// The wrapper: times as they stand in the listing, for every name; 17 before the check.
#[test]
fn wrapper() {
    for format in Format::BOTH {
        let image = card(format);
        let card = Card::new(in_wrapper(format), &image[..]);
        assert_eq!((card.list(), card.tree()), (card.list_at(0), card.tree_at(0)));
        for (place, (minutes, _)) in SHIFTS.into_iter().enumerate() {
            let tree = card.tree_mended_at(minutes).expect("a card");
            assert_eq!((tree.chunks, card.tree_at(minutes)), (0, Ok(tree.answer.clone())));
            let told = tree.answer.iter().map(|line| {
                let time = line.modified.map_or("unknown".to_string(), |time| time.to_string());
                (String::from_utf8(line.path.clone()).expect("text"), time)
            });
            let save = ("/SAVE".to_string(), USUAL_AT[place].to_string());
            let files = files().map(|(name, _, times)| (format!("/SAVE/{name}"), times[place].to_string()));
            assert!(told.eq([save].into_iter().chain(files)), "{minutes}");
        }
        for minutes in [i32::MIN, -1261, 301, i32::MAX] {
            let cut = Card::new(in_wrapper(format), &image[1..]);
            assert_eq!([card.list_at(minutes), cut.list_at(minutes)], [const { Err(Told::BadShift) }; 2]);
            assert_eq!([card.tree_at(minutes), cut.tree_at(minutes)], [const { Err(Told::BadShift) }; 2]);
        }
    }
}
