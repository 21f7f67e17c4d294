//! The listing in the shop's own time, document 02's request 8: which stamp, where it stands, and refusal 17.

use reader::build::stamped::{self, directories_modified, stamped};
use reader::build::{bad, bench, samples, usual_time};
use reader::calendar::text;
use reader::listing::{MOST_AHEAD, MOST_BEHIND};
use reader::rng::Rng;
use reader::time::{stamp, Time};
use reader::{check, create, find, list, make_dir, program, replace, Format};

/// Shifts that are refused, and the ends of those that aren't.
const REFUSED: [i32; 7] = [-1261, 301, 1260, -1440, -100_000, i32::MIN, i32::MAX];
const ENDS: [i32; 2] = [-1260, 300];

const SAVE: &str = "card 56\nfree 24\nreached 6\norphaned 0\nheld 0\nmended 0\n";

/// The entry lines of a listing.
fn entry_lines(text: &str) -> Vec<&str> {
    text.lines().skip(6).collect()
}

/// Document 01's whole listing, amended; then as shops at both ends see it.
#[test]
fn the_whole_listing() {
    let whole = "card 56
free 24
reached 6
orphaned 0
held 0
mended 0
d 3 /SAVE 2000-02-29 12:34:56
f 1500 /SAVE/A 2000-02-29 12:34:56
";
    assert_eq!(program(&samples::save()), whole);
    for format in Format::BOTH {
        let mut image = bench(format);
        make_dir(format, &mut image, b"/SAVE", &usual_time()).unwrap();
        create(format, &mut image, b"/SAVE/A", &usual_time(), &[1; 1500]).unwrap();
        assert_eq!(list(format, &image, 0), whole);
        for (minutes, time) in [
            (MOST_BEHIND, "2000-02-28 15:34:56"),
            (-755, "2000-02-28 23:59:56"),
            (-540, "2000-02-29 03:34:56"),
            (-1, "2000-02-29 12:33:56"),
            (MOST_AHEAD, "2000-02-29 17:34:56"),
        ] {
            let expected = format!("{SAVE}d 3 /SAVE {time}\nf 1500 /SAVE/A {time}\n");
            assert_eq!(list(format, &image, minutes), expected);
        }
    }
    assert_eq!([MOST_BEHIND, MOST_AHEAD], ENDS);
}

/// It is the modified stamp of the path's own entry, not of the directory's inside; a parent's stays.
#[test]
fn the_modified_stamp() {
    let [made, created, replaced] =
        [stamp(2001, 1, 1, 1, 1, 1), stamp(2002, 2, 2, 2, 2, 2), stamp(2003, 3, 3, 3, 3, 3)];
    for format in Format::BOTH {
        let mut image = bench(format);
        make_dir(format, &mut image, b"/D", &made).unwrap();
        create(format, &mut image, b"/D/F", &created, b"one").unwrap();
        let lines = ["d 3 /D 2001-01-01 01:01:01", "f 3 /D/F 2002-02-02 02:02:02"];
        assert_eq!(entry_lines(&list(format, &image, 0)), lines);
        replace(format, &mut image, b"/D/F", &replaced, b"four").unwrap();
        let lines = ["d 3 /D 2001-01-01 01:01:01", "f 4 /D/F 2003-03-03 03:03:03"];
        assert_eq!(entry_lines(&list(format, &image, 0)), lines);
        assert_eq!(find(format, &image, b"/D/F").unwrap().created, created);
    }
}

/// 17 comes before 1 to 7, and before a listing.
#[test]
fn refusal_17_first() {
    for format in Format::BOTH {
        let (good, junk) = (bench(format), vec![0xA5; bench(format).len()]);
        for minutes in REFUSED {
            for image in [&b""[..], b"x", &good, &junk, &good[1..]] {
                assert_eq!(list(format, image, minutes), "refused 17\n", "{minutes}");
            }
        }
        for minutes in ENDS {
            assert_eq!(list(format, b"", minutes), "refused 1\n");
            assert!(list(format, &good, minutes).starts_with("card 56\n"));
        }
        for card in bad::all(format) {
            assert_eq!(list(format, &card.image, -1261), "refused 17\n", "{}", card.name);
            assert_eq!(list(format, &card.image, 301), "refused 17\n", "{}", card.name);
            assert_eq!(list(format, &card.image, -1260), format!("{}\n", card.refusal), "{}", card.name);
        }
    }
    assert_eq!(program(b""), "refused 1\n");
}

/// Every number of minutes around both ends.
#[test]
fn accepted_minutes() {
    let image = samples::save();
    for minutes in -3000..=3000 {
        let is_refused = list(Format::Raw, &image, minutes) == "refused 17\n";
        assert_eq!(is_refused, !(-1260..=300).contains(&minutes), "{minutes}");
    }
}

/// The sample card of stamps, line by line.
#[test]
fn sample_of_stamps() {
    let text = program(&samples::times());
    let told = ["1980-01-01 00:00:00", "9999-12-31 23:59:59", "2000-02-29 12:34:56", "2024-02-29 00:00:00"];
    let times = [&told[..], &["unknown"; 8]].concat();
    let mut expected = vec!["d 14 /D00 2001-02-03 04:05:06".to_string()];
    expected.extend(times.iter().enumerate().map(|(number, time)| format!("f 0 /D00/F{number:04} {time}")));
    assert_eq!(entry_lines(&text), expected);
    // The years' ends are left at once, the others move.
    let behind = list(Format::Raw, &samples::times(), -1260);
    assert_eq!(entry_lines(&behind)[1], "f 0 /D00/F0000 unknown");
    assert_eq!(entry_lines(&behind)[2], "f 0 /D00/F0001 9999-12-31 02:59:59");
    let ahead = list(Format::Raw, &samples::times(), 300);
    assert_eq!(entry_lines(&ahead)[1], "f 0 /D00/F0000 1980-01-01 05:00:00");
    assert_eq!(entry_lines(&ahead)[2], "f 0 /D00/F0001 unknown");
    assert_eq!(entry_lines(&ahead)[5..], entry_lines(&text)[5..]);
}

/// Cards of one to some thousand stamps: accepted, and a line for each stamp in its order.
#[test]
fn stamped_cards() {
    let mut rng = Rng::new(17_000_000);
    let telling = [stamped::valid(), stamped::invalid()].concat();
    for count in [0, 1, 2, 99, 100, 101, 200, 250, 5000] {
        let format = *rng.pick(&Format::BOTH);
        let stamps: Vec<Time> =
            (0..count).map(|_| if rng.chance(1, 4) { rng.draw().to_le_bytes() } else { *rng.pick(&telling) }).collect();
        let image = stamped(format, &stamps);
        let counts = check(format, &image).unwrap();
        assert_eq!((counts.orphaned, counts.held, counts.mended), (0, 0, 0), "{count}");
        for minutes in [0, -1260, 300] {
            let shown = list(format, &image, minutes);
            let (directories, files): (Vec<&str>, Vec<&str>) =
                entry_lines(&shown).into_iter().partition(|line| line.starts_with('d'));
            let minutes = i64::from(minutes);
            let expected: Vec<String> = (0..count)
                .map(|number| {
                    let time = text(&stamps[number], minutes);
                    format!("f 0 /D{:02}/F{number:04} {time}", number / 100)
                })
                .collect();
            assert_eq!(files, expected, "{count}");
            assert_eq!(directories.len(), count.div_ceil(100));
            let end = format!(" {}", text(&directories_modified(), minutes));
            assert!(directories.iter().all(|line| line.ends_with(&end)), "{count}");
        }
    }
}
