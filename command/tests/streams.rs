//! Standard output and error in every state, an image from standard input.

mod common;

use std::fs::{File, OpenOptions};
use std::process::Command;

use common::{converted, Folder, Outcome};
use reader::build::{self, samples};
use reader::Format::Raw;
use reader::{Format, Refusal};

fn full() -> File {
    OpenOptions::new().write(true).open("/dev/full").expect("/dev/full")
}

/// Through a shell that closes what it is told to.
fn shell(folder: &Folder, script: &str, words: &[&str]) -> Outcome {
    let mut shell = Command::new("sh");
    shell.current_dir(folder.path(".")).args(["-c", script, "sh", env!("CARGO_BIN_EXE_ps2card")]).args(words);
    Outcome::of(shell.output().expect("it runs"))
}

/// Refusals, wrong usage, host errors, a wait: none of them needs standard error.
#[test]
fn standard_error_full_or_closed() {
    let folder = Folder::new();
    folder.write("card", &build::bench(Raw));
    std::fs::hard_link(folder.path("card"), folder.path("second")).expect("a link");
    let runs: [(&[&str], i32); 6] = [
        (&["find", "card", "/x"], 1),
        (&["frob"], 2),
        (&[], 2),
        (&["check", "none"], 3),
        (&["verify", "none", "card"], 3),
        (&["mkdir", "card", "/D"], 0),
    ];
    for (words, status) in runs {
        let bytes: Vec<&[u8]> = words.iter().map(|word| word.as_bytes()).collect();
        let given = folder.command(&bytes).stderr(full()).output().expect("it ends");
        assert_eq!((given.status.code(), given.stdout.len()), (Some(status), 0), "{words:?}");
        let given = shell(&folder, "exec \"$@\" 2>&-", words);
        // The last one was made before.
        let again = if words.contains(&"/D") { 1 } else { status };
        assert_eq!((given.status, given.out.len(), given.err.as_str()), (again, 0, ""), "{words:?}");
    }
    let given = shell(&folder, "exec \"$@\" 2>&1 | head -c 0", &["find", "card", "/x"]);
    assert_eq!(given.err, "");
}

/// A reader that goes away ends the command without a word; a full disk is told.
#[test]
fn standard_output_full_or_closed() {
    let folder = Folder::new();
    folder.write("card", &build::crowded(Raw));
    let runs: [&[&[u8]]; 6] = [
        &[b"list", b"card"],
        &[b"ls", b"card"],
        &[b"check", b"card", b"card"],
        &[b"get", b"card", b"/SAVE00/file00", b"-"],
        &[b"cat", b"card", b"/SAVE00/file00"],
        &[b"--help"],
    ];
    for words in runs {
        let (reader, writer) = std::io::pipe().expect("a pipe");
        drop(reader);
        let output = folder.command(words).stdout(writer).output().expect("it ends");
        assert_eq!((output.status.code(), output.stderr), (Some(3), Vec::new()), "{words:?}");
        let output = folder.command(words).stdout(full()).output().expect("it ends");
        let err = String::from_utf8(output.stderr).expect("text");
        assert!(output.status.code() == Some(3) && err.contains("cannot write to standard output"), "{words:?}: {err}");
        // Both at once.
        let output = folder.command(words).stdout(full()).stderr(full()).output().expect("it ends");
        assert_eq!(output.status.code(), Some(3), "{words:?}");
    }
}

/// Every command that only looks takes its image from standard input.
#[test]
fn image_from_standard_input() {
    Format::BOTH.into_iter().for_each(image_from_standard_input_of);
}

fn image_from_standard_input_of(format: Format) {
    let folder = Folder::of(format);
    let image = converted(format, &samples::shop());
    folder.write("card", &image);
    let runs: [&[&[u8]]; 9] = [
        &[b"list", b"-"],
        &[b"ls", b"-"],
        &[b"ls", b"-", b"/SAVE", b"-l"],
        &[b"find", b"-", b"/SAVE"],
        &[b"step", b"-", b"/", b"3"],
        &[b"cat", b"-", b"/SAVE/A"],
        &[b"get", b"-", b"/SAVE/A", b"-"],
        &[b"verify", b"-"],
        &[b"compare", b"-", b"card"],
    ];
    for words in runs {
        let named: Vec<&[u8]> =
            words.iter().enumerate().map(|(at, &word)| if at == 1 { b"card" } else { word }).collect();
        let given = folder.feed(words, &image);
        assert!(!given.out.is_empty());
        assert_eq!(given.done(), folder.feed(&named, b"").done(), "{words:?}");
        let given = folder.feed(words, &image[..1000]);
        assert!(given.err.ends_with(" (standard input)\n"), "{given:?}");
        given.refused(Refusal::number(1));
    }
    folder.feed(&[b"get", b"-", b"/SAVE", b"save"], &image).done();
    assert_eq!(folder.read("save/A").len(), 1500);
    folder.feed(&[b"get", b"-", b"/SAVE", b"-"], &image).refused(Refusal::number(10));
}

/// A refusal names its image, and the path where that has a part in it; one of a path says what a path looks like.
#[test]
fn refusals_name_their_image() {
    let folder = Folder::new();
    folder.write("card", &build::bench(Raw));
    folder.write("cut", &build::bench(Raw)[..100]);
    for (words, end) in [
        (&["check", "cut"][..], " (cut)\n"),
        (&["find", "cut", "/A"], " (cut)\n"),
        (&["mkdir", "cut", "/A"], " (cut)\n"),
        (&["find", "card", "/A"], " (card: /A)\n"),
        (&["rmdir", "card", "/A"], " (card: /A)\n"),
        (&["ls", "card", "A"], " (card: A)\n"),
        (&["ls", "card", "A", "--minutes", "301"], " (card)\n"),
        (&["mkdir", "card", "/A*"], " (card: /A*)\n"),
        (&["mkdir", "card", "/A", "--stamp", "1979-01-01T00:00:00"], " (card: /A)\n"),
    ] {
        let given = folder.run(words);
        assert!(given.status == 1 && given.err.ends_with(end), "{words:?}: {given:?}");
        if given.err.starts_with("refused 8: ") {
            assert!(given.err.contains("up to eight names each after /"), "{given:?}");
            assert!(given.err.contains("such as /SAVE/icon.sys"), "{given:?}");
        }
    }
}
