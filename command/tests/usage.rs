//! The command line: help, and what is wrong with it.

mod common;

use common::Folder;
use reader::build;
use reader::Format::Raw;

/// The commands, and what people of other systems call them.
const COMMANDS: [(&str, Option<&str>); 17] = [
    ("check", Some("df")),
    ("verify", None),
    ("compare", None),
    ("list", None),
    ("ls", None),
    ("find", Some("stat")),
    ("step", None),
    ("read", Some("cat")),
    ("get", None),
    ("put", None),
    ("create", None),
    ("replace", None),
    ("delete", Some("rm")),
    ("mkdir", None),
    ("rmdir", None),
    ("new", Some("format")),
    ("convert", None),
];

#[test]
fn help() {
    let folder = Folder::new();
    let all = folder.run(&["--help"]).text();
    assert_eq!(folder.run(&["-h"]).text(), all);
    assert_eq!(folder.run(&["help"]).text(), all);
    let width = |text: &str| text.lines().map(str::len).max().unwrap_or(0);
    for (command, alias) in COMMANDS {
        let text = folder.run(&[command, "--help"]).text();
        let usage = format!("usage: ps2card {command} ");
        let form = text.lines().next().and_then(|line| line.strip_prefix(&usage)).expect("a usage line");
        // The list of all commands has the same form, but for the time, the zone and the format.
        let listed = form.split(" [--plain").next().and_then(|form| form.split(" [--minutes").next()).expect("a form");
        let listed = format!("\n  {command:8} {listed} ");
        assert!(all.contains(&listed), "{listed:?}");
        assert_eq!(folder.run(&[command, "a", "b", "c", "d", "e", "f", "--help"]).text(), text);
        assert_eq!(folder.run(&["help", command]).text(), text);
        if let Some(alias) = alias {
            assert_eq!(folder.run(&[alias, "-h"]).text(), text);
            assert!(text.contains(&format!("Also called {alias}.")) && all.contains(&format!("(also {alias})")));
        }
        let timed = ["create", "replace", "put", "mkdir", "new"].contains(&command);
        assert_eq!((text.contains("--stamp"), form.contains("[--stamp TIME]")), (timed, timed), "{text}");
        let zoned = ["list", "ls"].contains(&command);
        assert_eq!((text.contains("--zone "), form.contains("[--minutes M | --zone Z]")), (zoned, zoned), "{text}");
        let locks = ["ls", "find", "put", "create", "replace", "delete", "mkdir", "rmdir"].contains(&command);
        assert_eq!(text.contains("locked"), locks, "{text}");
        // What a check for each entry costs is said.
        let many = ["get", "put", "verify", "compare", "ls", "delete"].contains(&command);
        let words = text.split_whitespace().collect::<Vec<&str>>().join(" ");
        assert_eq!(
            words.contains("by a call that checks the whole card first, as the rule is: 2,000 files take about "),
            many,
            "{text}"
        );
        let formats = match command {
            "convert" => "--to-plain|--to-raw",
            "compare" => "[--plain | --plain-a | --plain-b]",
            _ => "[--plain]",
        };
        assert!(
            form.contains(formats) && text.lines().any(|line| line.starts_with("--plain ")) != (command == "convert")
        );
        assert!(!text.contains("valid or not") && width(&text) <= 120, "{text}");
    }
    assert!(width(&all) <= 120 && !all.contains("valid or not"));
    assert!(folder.run(&["check", "--help"]).text().contains("It reads no file data"));
    folder.run(&["help", "frob"]).failed(2, "no command frob");
    let version = concat!("ps2card ", env!("CARGO_PKG_VERSION"), "\n");
    assert_eq!(folder.run(&["--version"]).text(), version);
    assert_eq!(folder.run(&["check", "-V"]).text(), version);
}

/// A command's other name does the same.
#[test]
fn other_names() {
    let folder = Folder::new();
    folder.run(&["format", "card", "56", "--stamp", common::USUAL]).done();
    assert_eq!(folder.read("card"), build::bench(Raw));
    folder.feed(&[b"create", b"card", b"/A", b"-"], b"a save").done();
    assert_eq!(folder.run(&["cat", "card", "/A"]).done(), b"a save");
    assert_eq!(folder.run(&["stat", "card", "/A"]), folder.run(&["find", "card", "/A"]));
    assert_eq!(folder.run(&["df", "card"]), folder.run(&["check", "card"]));
    folder.run(&["rm", "card", "/A"]).done();
    assert_eq!(folder.run(&["ls", "card"]).text(), "/ is empty\n");
}

#[test]
fn wrong_usage() {
    let folder = Folder::new();
    let image = build::bench(Raw);
    folder.write("card", &image);
    let wrong: [&[&str]; 51] = [
        &[],
        &["frob"],
        &["frob", "card"],
        &["--frob"],
        &["check"],
        &["check", "-", "-"],
        &["verify"],
        &["verify", "-", "card", "-"],
        &["compare", "card"],
        &["compare", "card", "card", "card"],
        &["compare", "-", "-"],
        &["compare", "--bytes-only=yes", "card", "card"],
        &["check", "-r", "card"],
        &["ls", "--as", "x", "card"],
        &["put", "card", ".", "--as"],
        &["put", "card", ".", "--as", "a/b"],
        &["put", "card", "-"],
        &["delete", "-", "/A"],
        &["mkdir", "-", "/A"],
        &["new", "-"],
        &["rmdir", "-r", "card", "/A"],
        &["put", "-", "."],
        &["check", "--frob", "card"],
        &["list", "card", "/"],
        &["ls", "card", "/", "/"],
        &["find", "card"],
        &["step", "card", "/"],
        &["step", "card", "/", "-1"],
        &["step", "card", "/", "4294967296"],
        &["read", "card", "/A", "x"],
        &["read", "card", "/A", "0", ""],
        &["get", "card", "/"],
        &["create", "card", "/A"],
        &["mkdir", "card", "/A", "--stamp"],
        &["mkdir", "card", "/A", "--stamp", "today"],
        &["mkdir", "card", "/A", "--stamp", "0x00"],
        &["mkdir", "--stamp=2000-01-01", "card", "/A"],
        &["delete", "card", "/A", "--stamp", common::USUAL],
        &["rmdir", "card"],
        &["put", "card"],
        &["check", "--plain=yes", "card"],
        &["check", "--plain-a", "card"],
        &["check", "--to-plain", "card"],
        &["convert", "card", "made"],
        &["convert", "card", "made", "--plain"],
        &["convert", "card", "made", "--to-plain", "--to-raw"],
        &["convert", "card", "made", "--to-plain", "--plain"],
        &["convert", "card", "--to-plain"],
        &["convert", "card", "made", "more", "--to-plain"],
        &["convert", "card", "-", "--to-plain"],
        &["convert", "card", "made", "--to-plain=yes"],
    ];
    for words in wrong {
        let given = folder.run(words);
        assert!(given.status == 2 && given.out.is_empty(), "{words:?}: {given:?}");
        assert!(given.err.starts_with("ps2card: ") && given.err.contains("\nusage: ps2card "), "{words:?}: {given:?}");
    }
    assert_eq!((folder.read("card"), folder.names()), (image, vec!["card".to_string()]));
}

#[test]
fn files_that_are_not_there() {
    let folder = Folder::new();
    for command in ["check", "list", "ls"] {
        folder.run(&[command, "none"]).failed(3, "cannot read none");
        folder.run(&[command, "."]).failed(3, "cannot read .");
    }
    folder.run(&["delete", "none", "/A"]).failed(3, "cannot change none");
    folder.run(&["delete", ".", "/A"]).failed(3, "cannot change .");
}
