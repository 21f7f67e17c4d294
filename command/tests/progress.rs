//! Progress on a terminal: what takes longer than a second says how far it is, and clears its line.

mod common;

use std::fs::{self, File};
use std::io::{self, Read, Write};
use std::process::{Command, Stdio};
use std::thread::sleep;
use std::time::Duration;

use common::terminal::{OnTerminal, Shown, Terminal};
use common::{crowd, Folder, Outcome};
use reader::build::{self, file, samples, scribble, Assembly, Layout};
use reader::page::DATA;
use reader::Format::Raw;

/// The command with these words and nothing on standard input.
fn command(folder: &Folder, words: &[&str]) -> Command {
    let words: Vec<&[u8]> = words.iter().map(|word| word.as_bytes()).collect();
    let mut command = folder.command(&words);
    command.stdin(Stdio::null());
    command
}

/// Whether the line with its steps, which begins and ends so, was there twice or more. In the end it is gone.
fn told(shown: &Shown, start: &str, end: &str) -> bool {
    let (steps, screen) = (shown.steps(start, end), shown.screen());
    println!("{:?}: {start}{steps:?}{end}", shown.took);
    assert!(steps.is_sorted() && !screen.contains(start) && !screen.contains(end), "{steps:?}\n{screen}");
    steps.len() > 1 && steps.last() > Some(&0)
}

/// Runs a command with more and more to do, until it is at work for longer than a second on this machine and tells its
/// steps; the folder, how much there was to do, and what was shown. `prepare` makes the work and says how many steps it
/// has; `start` and `what` stand before and behind the numbers.
fn at_work(
    words: &[&str],
    start: &str,
    what: &str,
    prepare: impl Fn(&Folder, usize) -> usize,
) -> (Folder, usize, Shown) {
    let mut size = 400;
    loop {
        let folder = Folder::new();
        let end = format!(" of {} {what}", prepare(&folder, size));
        let shown = Shown::of(command(&folder, words), None);
        if told(&shown, start, &end) {
            return (folder, size, shown);
        }
        assert!(shown.took < Duration::from_secs(6), "{:?} without {start}{end}: {:?}", shown.took, shown.text);
        // The work grows with the square.
        let factor = (2.0 / shown.took.as_secs_f64()).sqrt();
        size = (size as f64 * factor.clamp(1.2, 4.0)) as usize;
    }
}

/// A card with so many files in one directory.
fn crowded(folder: &Folder, files: usize) -> usize {
    folder.write("card", &crowd(files));
    files
}

#[test]
fn verify() {
    let words = ["verify", "card"];
    let (folder, files, shown) = at_work(&words, "ps2card verify: ", "files", crowded);
    assert_eq!((shown.status, shown.screen()), (0, folder.run(&words).text()));
    // Of what is short, nothing is told.
    let shown = Shown::of(command(&folder, &["ls", "card"]), None);
    assert_eq!(shown.text, format!("dir   {files} entries  SAVE\r\n"));
}

/// It looks at each entry that it shows.
#[test]
fn ls() {
    let (_, files, shown) = at_work(&["ls", "card", "/SAVE"], "ps2card ls: ", "entries", crowded);
    assert_eq!((shown.status, shown.screen().lines().count()), (0, files));
}

/// All is read before it meets the folder that is not there. The directory is one more.
#[test]
fn get() {
    let words = ["get", "card", "/", "none/out"];
    let prepare = |folder: &Folder, files| crowded(folder, files) + 1;
    let (_, _, shown) = at_work(&words, "ps2card get: ", "entries read", prepare);
    assert!(shown.status == 3 && shown.screen().starts_with("ps2card: cannot write none/out: "), "{}", shown.screen());
}

#[test]
fn put() {
    let prepare = |folder: &Folder, files| {
        folder.write("card", &build::standard(Raw));
        fs::create_dir(folder.path("SAVE")).expect("a folder");
        (0..files).for_each(|number| drop(folder.write(&format!("SAVE/{number}"), b"")));
        files + 1
    };
    let (folder, files, shown) = at_work(&["put", "card", "SAVE"], "ps2card put: ", "entries created", prepare);
    let tree = reader::tree(Raw, &folder.read("card")).expect("accepted");
    // The root too.
    assert_eq!((shown.status, shown.screen().as_str(), tree.len()), (0, "", files + 2));
}

#[test]
fn delete() {
    let words = ["rm", "-r", "card", "/SAVE"];
    let prepare = |folder: &Folder, files| crowded(folder, files) + 1;
    let (folder, _, shown) = at_work(&words, "ps2card delete: ", "entries deleted", prepare);
    let tree = reader::tree(Raw, &folder.read("card")).expect("accepted");
    assert_eq!((shown.status, shown.screen().as_str(), tree.len()), (0, "", 1));
}

/// The root and the directory are paths too.
#[test]
fn compare() {
    let prepare = |folder: &Folder, files| crowded(folder, files) + 2;
    let (_, files, shown) = at_work(&["compare", "card", "card"], "ps2card compare: ", "paths", prepare);
    assert_eq!((shown.status, shown.screen()), (0, format!("the same: {files} files, 2 directories\n")));
}

/// A card with so many dead entries in its root, which make its check long, and two files of as many unreadable pages.
fn torn(folder: &Folder, size: usize) -> usize {
    let mut card = Assembly::new(Raw, Layout::standard());
    let half = size.div_ceil(2);
    let clusters: Vec<usize> = (0..2 + 3 * half).collect();
    let (root, rest) = clusters.split_at(2 + half);
    card.directory(root, 4 + size as u32);
    for slot in 4..4 + size {
        card.write(card.page(root[slot / 2], slot % 2), &[0; DATA]);
    }
    for (place, chain) in rest.chunks(half).enumerate() {
        card.put(root[1], place, &file(&[b'A' + place as u8], (DATA * size) as u32, chain[0] as u32));
        card.chain(chain);
        (0..size).for_each(|at| {
            let page = card.page(chain[at / 2], at % 2);
            scribble::break_page(Raw, &mut card.image, page);
        });
    }
    folder.write("card", &card.finish());
    size
}

/// A call for each of them: a loop inside a step of another.
#[test]
fn unreadable_pages() {
    let start = "ps2card verify: 1 of 2 files, ";
    let (_, size, shown) = at_work(&["verify", "card"], start, "pages", torn);
    let screen = shown.screen();
    assert!(screen.lines().all(|line| line.starts_with("refused 2 ")), "{screen}");
    assert_eq!((shown.status, screen.lines().count()), (1, 2 * size));
}

/// A disk on which the start of each file takes so many milliseconds to read, and each sync as many others.
fn slowly(folder: &Folder, read: u32, sync: u32, words: &[&str]) -> Command {
    let mut command = folder.shimmed(words);
    command.env("SHIM_SLOW_READ", read.to_string()).env("SHIM_SLOW_SYNC", sync.to_string());
    command
}

/// It is told whether standard output is the terminal or a file, and not where it is a pipe: its reader may have the
/// terminal.
#[test]
fn images() {
    let folder = Folder::new();
    folder.write("card", &samples::save());
    for name in ["check", "verify"] {
        let words = [&[name][..], &["card"; 8]].concat();
        let plain = folder.run(&words).text();
        let file = File::create(folder.path("file")).expect("a file");
        let (mut reader, writer) = io::pipe().expect("a pipe");
        let outputs = [None, Some(file.into()), Some(writer.into())];
        let started = outputs.map(|output| OnTerminal::start(slowly(&folder, 250, 0, &words), output));
        let [terminal, file, pipe] = started.map(OnTerminal::end);
        let (start, end) = (format!("ps2card {name}: "), " of 8 images");
        assert!(told(&terminal, &start, end) && told(&file, &start, end), "{terminal:?} {file:?}");
        assert_eq!((terminal.status, terminal.screen()), (0, plain.clone()));
        assert_eq!((file.status, file.screen(), folder.read("file")), (0, String::new(), plain.clone().into_bytes()));
        assert_eq!((pipe.status, pipe.text.as_str()), (0, ""));
        let mut piped = String::new();
        reader.read_to_string(&mut piped).expect("text");
        assert_eq!(piped, plain);
    }
}

/// What `get` has read it writes and syncs, the directories last.
#[test]
fn written() {
    const SAVES: usize = 30;
    let folder = Folder::new();
    let (mut image, time) = (build::standard(Raw), build::usual_time());
    for number in 0..SAVES {
        let save = format!("/SAVE{number}");
        reader::make_dir(Raw, &mut image, save.as_bytes(), &time).expect("room");
        reader::create(Raw, &mut image, format!("{save}/A").as_bytes(), &time, b"bytes").expect("room");
    }
    folder.write("card", &image);
    let shown = Shown::of(slowly(&folder, 0, 70, &["get", "card", "/", "out"]), None);
    assert!(told(&shown, "ps2card get: ", &format!(" of {} entries written", 2 * SAVES)), "{shown:?}");
    assert!(told(&shown, "ps2card get: ", &format!(" of {SAVES} directories dated")), "{shown:?}");
    assert_eq!((shown.status, shown.screen().as_str()), (0, ""));
    assert_eq!(folder.read(&format!("out/SAVE{}/A", SAVES - 1)), b"bytes");
}

/// What `put` creates it reads first, a loop for each directory. The line is never as wide as the terminal.
#[test]
fn host_files() {
    let folder = Folder::new();
    folder.write("card", &build::standard(Raw));
    fs::create_dir_all(folder.path("SAVE/inside")).expect("folders");
    (0..40).for_each(|number| drop(folder.write(&format!("SAVE/inside/{number:02}"), b"")));
    folder.write("SAVE/first", b"");
    let read = |name: &str| slowly(&folder, 50, 0, &["put", "card", "SAVE", "--as", name]);
    let narrow = Terminal::new(40).start(read("NARROW"), None);
    let shown = Shown::of(read("WIDE"), None);
    assert!(told(&shown, "ps2card put: 1 of 2 entries read, ", " of 40 entries read"), "{shown:?}");
    for (shown, columns) in [(shown, 80), (narrow.end(), 40)] {
        assert!(shown.text.split('\r').all(|line| line.len() < columns), "{shown:?}");
        assert_eq!((shown.status, shown.screen().as_str()), (0, ""));
    }
}

/// Every command says that it is at work, where the disk is slow; and nothing of it where standard error is no terminal.
#[test]
fn every_command() {
    // Each has an image of its own: all run at once.
    let runs = [
        "check card#",
        "verify card#",
        "compare card# card#",
        "list card#",
        "ls card#",
        "find card# /SAVE",
        "step card# / 0",
        "read card# /E/text",
        "get card# /SAVE out#",
        "put card# file",
        "create card# /B file",
        "replace card# /SAVE/A file",
        "delete card# /SAVE -r",
        "mkdir card# /D",
        "rmdir card# /F",
        "new made#",
        "convert card# made# --to-plain",
    ];
    let (mut image, time) = (samples::save(), build::usual_time());
    reader::make_dir(Raw, &mut image, b"/E", &time).expect("room");
    reader::make_dir(Raw, &mut image, b"/F", &time).expect("room");
    reader::create(Raw, &mut image, b"/E/text", &time, b"some text\n").expect("room");
    let folders = [Folder::new(), Folder::new()];
    folders.iter().for_each(|folder| drop(folder.write("file", b"bytes")));
    let mut number = 0;
    let started = runs.map(|run| {
        number += 1;
        let run = run.replace('#', &number.to_string());
        let words: Vec<&str> = run.split(' ').collect();
        folders.iter().for_each(|folder| drop(folder.write(&format!("card{number}"), &image)));
        let [terminal, mut elsewhere] = [0, 1].map(|place| slowly(&folders[place], 1700, 0, &words));
        (words[0].to_string(), OnTerminal::start(terminal, None), elsewhere.spawn().expect("it starts"))
    });
    for (name, terminal, elsewhere) in started {
        let shown = terminal.end();
        let plain = Outcome::of(elsewhere.wait_with_output().expect("an end")).text();
        assert!(shown.text.contains(&format!("\rps2card {name} ...")), "{name}: {shown:?}");
        assert_eq!((shown.status, shown.screen()), (0, plain), "{name}");
    }
}

/// A file as standard input is nobody else's.
#[test]
fn file_as_standard_input() {
    let folder = Folder::new();
    let card = folder.write("card", &samples::save());
    let mut command = slowly(&folder, 1700, 0, &["check", "-"]);
    command.stdin(File::open(card).expect("a card"));
    let shown = Shown::of(command, None);
    assert!(shown.text.contains("\rps2card check ..."), "{shown:?}");
    assert!(shown.screen().starts_with("standard input: OK, "), "{shown:?}");
}

/// Who types the bytes at the terminal is left in peace, however long it takes, and so is who sends them by a pipe.
#[test]
fn no_progress_while_typing() {
    let folder = Folder::new();
    folder.write("card", &build::bench(Raw));
    let create = |path: &[u8]| folder.command(&[b"create", b"card", path, b"-"]);
    let terminal = Terminal::new(80);
    let mut typed = create(b"/A");
    typed.stdin(terminal.slave.try_clone().expect("another"));
    let mut typed = terminal.start(typed, None);
    let mut piped = OnTerminal::start(create(b"/B"), None);
    sleep(Duration::from_millis(1700));
    // The last key ends the input.
    typed.master.write_all(b"typed\n\x04").expect("keys");
    piped.child.stdin.take().expect("a pipe").write_all(b"sent").expect("read");
    // The terminal shows what is typed.
    for (run, text, path, bytes) in [(typed, "typed\r\n", "/A", "typed\n"), (piped, "", "/B", "sent")] {
        let shown = run.end();
        assert_eq!((shown.status, shown.text.as_str()), (0, text));
        assert_eq!(folder.run(&["cat", "card", path]).text(), bytes);
    }
}
