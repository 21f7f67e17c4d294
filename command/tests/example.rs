//! The example of the docs, as C and C++, with sanitizers, and as an installed library has it; and what may be NULL.

#[path = "c/mod.rs"]
mod c;
mod common;

use std::path::Path;
use std::process::{Command, Output};

use c::{Done, Program, Way};
use common::locked::lock;
use common::{in_reader, Folder};
use ps2card::{Card, Format, Stamp};
use reader::build;

/// Runs the example on the sample card of document 01, raw and plain, and holds what it does to what the wrapper does.
fn example_is_right(folder: &Folder, program: &Program) {
    Format::ALL.into_iter().for_each(|format| example_is_right_in(format, folder, program));
}

fn example_is_right_in(format: Format, folder: &Folder, program: &Program) {
    let time = Stamp(build::usual_time());
    let run = |names: &[&str]| match format {
        Format::Raw => program.run(folder, names),
        Format::Plain => program.run(folder, &[&["--plain"], names].concat()),
    };
    let mut card = Card::fresh(format, 56, &time).expect("a fresh card");
    card.make_dir(b"/SAVE", &time).expect("room");
    card.create(b"/SAVE/A", &time, &[1; 1500]).expect("room");
    folder.write("card", card.image());
    let before = Stamp::now().0;
    // time() of C goes by the clock's last tick, which may be of the second before.
    std::thread::sleep(std::time::Duration::from_millis(20));
    let text = run(&["card", "changed"]).text();
    let changed = Card::new(format, folder.read("changed"));
    let listing = String::from_utf8(changed.list().expect("a card")).expect("text");
    let counts = "56 clusters, 24 free, 0 held back, 0 chunks mended";
    assert_eq!(text, format!("{counts}\ndirectory 3 SAVE\nnote kept\n{listing}"));
    let entry = changed.find(b"/EXAMPLE/NOTE").expect("a file");
    let listed = entry.modified.to_string().replace('T', " ");
    assert!(listing.ends_with(&format!("d 3 /EXAMPLE {listed}\nf 37 /EXAMPLE/NOTE {listed}\n")), "{listing}");
    assert_eq!(folder.read("card"), card.image());
    // The time is Japan's, of the run.
    let order = |stamp: &[u8; 8]| [stamp[7], stamp[6], stamp[5], stamp[4], stamp[3], stamp[2], stamp[1]];
    assert!(entry.created.is_valid() && order(&before) <= order(&entry.created.0));
    assert!(order(&entry.created.0) <= order(&Stamp::now().0));
    // It tells of a refusal, of a page that cannot be read and of wrong usage.
    folder.write("short", &card.image()[1..]);
    // Whatever is locked it shows, and makes nothing in a locked root.
    let mut locked = card.image().to_vec();
    lock(in_reader(format), &mut locked, &["/", "/SAVE"]);
    folder.write("locked", &locked);
    assert_eq!(
        String::from_utf8_lossy(&run(&["locked", "again"]).0.stdout),
        format!("{counts}\ndirectory 3 SAVE (locked)\n")
    );
    let mut damaged = card.into_image();
    damaged[0] ^= 3;
    folder.write("damaged", &damaged);
    // In the plain format it is another text.
    let told = if format == Format::Raw { "check: refused 2, page 0\n" } else { "check: refused 3\n" };
    for (names, status, words) in [
        (&["changed", "again"][..], 1, "make /EXAMPLE: refused 11\n"),
        (&["short", "again"], 1, "check: refused 1\n"),
        (&["damaged", "again"], 1, told),
        (&["locked", "again"], 1, "make /EXAMPLE: refused 16\n"),
        (&["card"], 2, concat!("usage: example [--plain] IMAGE NEW-IMAGE (ps2card ", env!("CARGO_PKG_VERSION"), ")\n")),
    ] {
        let Done(output) = run(names);
        let told = (output.status.code(), String::from_utf8_lossy(&output.stderr).into_owned());
        assert_eq!(told, (Some(status), words.to_string()));
    }
    assert!(!folder.path("again").exists());
}

#[test]
fn example() {
    for way in c::WAYS {
        let folder = Folder::new();
        example_is_right(&folder, &c::compiled(&folder, c::root().join("docs/example.c"), way));
    }
}

/// The header alone, in a C++ that takes no casts of C.
#[test]
fn header_alone() {
    let folder = Folder::new();
    folder.write("alone.c", b"#include \"ps2card.h\"\nint main() { return ps2card_check == 0; }\n");
    let include = c::root().join("include").display().to_string();
    let words = ["-Wold-style-cast", "-Wno-address", "-I", &include];
    c::compiled_by(&folder, folder.path("alone.c"), Way::Cpp, &words, &[ps2card_sys::ARCHIVE]);
}

fn install(words: &[&str]) -> Output {
    let mut command = Command::new(c::root().join("install"));
    let archive = Path::new(ps2card_sys::ARCHIVE).parent().expect("a folder");
    command.args(words).env("PS2CARD_LIB_DIR", archive).output().expect("it runs")
}

/// What `./install` puts under a prefix serves by its pkg-config file alone.
#[test]
fn installed() {
    let folder = Folder::new();
    let prefix = folder.path("prefix").display().to_string();
    let output = install(&["--prefix", &prefix]);
    assert!(output.status.success() && output.stderr.is_empty(), "{output:?}");
    let pkg_config = |words: &[&str]| {
        let mut command = Command::new("pkg-config");
        command.args(words).arg("ps2card").env("PKG_CONFIG_PATH", format!("{prefix}/lib/pkgconfig"));
        let output = command.output().expect("pkg-config runs");
        assert!(output.status.success(), "{output:?}");
        String::from_utf8(output.stdout).expect("text").trim().to_string()
    };
    assert_eq!(pkg_config(&["--modversion"]), env!("CARGO_PKG_VERSION"));
    let (flags, libraries) = (pkg_config(&["--cflags"]), pkg_config(&["--libs"]));
    let (flags, libraries): (Vec<&str>, Vec<&str>) = (flags.split(' ').collect(), libraries.split(' ').collect());
    let source = c::root().join("docs/example.c");
    example_is_right(&folder, &c::compiled_by(&folder, source, Way::C99, &flags, &libraries));
}

/// A wrong line is status 2, a prefix that cannot be written status 3; both say so.
#[test]
fn not_installed() {
    for (words, status, told) in [
        (&[][..], 2, "usage: ./install --prefix DIR"),
        (&["--prefix"], 2, "usage: ./install --prefix DIR"),
        (&["--prefix", "/tmp/a b"], 2, "no folder with a blank"),
        (&["--prefix=/proc/ps2card"], 3, "cannot write /proc/ps2card/"),
    ] {
        let output = install(words);
        let err = String::from_utf8_lossy(&output.stderr).into_owned();
        assert!(output.status.code() == Some(status) && err.contains(told), "{words:?}: {output:?}");
    }
}

/// NULL with the length 0 is taken as any other pointer with the length 0 is; a number that is no format is refused with
/// 1 by every call, but by the listing after 17.
#[test]
fn null_with_length_zero() {
    for way in c::WAYS {
        let folder = Folder::new();
        folder.write("card", &build::bench(reader::Format::Raw));
        let text = c::compiled(&folder, c::test("lent"), way).run(&folder, &["card"]).text();
        let count = |start: &str| text.lines().filter(|line| line.split(' ').next() == Some(start)).count();
        assert_eq!(["image", "changed_image", "path", "changed_path"].map(count), [5; 4], "{text}");
        assert_eq!(["plain_image", "changed_plain_image"].map(count), [5; 2], "{text}");
        // The fifth look is the listing, whose answer is the length of its line.
        let lines = |line: &str| text.lines().filter(|told| *told == line).count();
        let answers = ["no_format 1 1", "no_format 10 10", "changed_no_format 1 1"].map(lines);
        assert_eq!((answers, ["no_format", "changed_no_format"].map(count)), ([8, 2, 10], [10; 2]), "{text}");
        for line in ["image 1 1", "changed_image 1 1", "path 8 8", "changed_path 8 8", "create 0 0", "replace 0 0"] {
            assert!(text.lines().any(|told| told == line), "{line}: {text}");
        }
        for line in ["to_plain 1 1", "to_raw 1 1", "to_plain_out 23 23", "to_raw_out 23 23"] {
            assert!(text.lines().any(|told| told == line), "{line}: {text}");
        }
        for line in ["read 0 0", "count 0 0", "mended 0 0", "read_directory 10 10", "mended_directory 77 77"] {
            assert!(text.lines().any(|told| told == line), "{line}: {text}");
        }
        // The length of the line `refused 17`.
        for line in ["bad_minutes 11 11", "bad_minutes_first 11 11"] {
            assert!(text.lines().any(|told| told == line), "{line}: {text}");
        }
    }
}
