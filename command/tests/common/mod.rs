//! What the tests of the command share: a folder of their own, and runs of the command.
#![allow(dead_code)]

pub mod locked;
pub mod mended;
pub mod terminal;

use std::ffi::OsStr;
use std::fs;
use std::io::Write;
use std::os::unix::ffi::OsStrExt;
use std::path::{Path, PathBuf};
use std::process::{Child, Command, Output, Stdio};
use std::sync::atomic::{AtomicUsize, Ordering};

use reader::build::{directory, file, Assembly, Layout};
use reader::content::visit;
use reader::entry::NO_CLUSTER;
use reader::tree::Checked;
use reader::Format::{Plain, Raw};
use reader::{page, Format, Refusal};

/// The time of the cards that the independent builder makes.
pub const USUAL: &str = "2000-02-29T12:34:56";

/// The same as listings have it.
pub const USUAL_LISTED: &str = "2000-02-29 12:34:56";

/// How a run ended and what it wrote.
#[derive(Debug, PartialEq, Eq)]
pub struct Outcome {
    pub status: i32,
    pub out: Vec<u8>,
    pub err: String,
}

impl Outcome {
    pub fn of(output: Output) -> Outcome {
        Outcome {
            status: output.status.code().unwrap_or(-1),
            out: output.stdout,
            err: String::from_utf8(output.stderr).expect("text"),
        }
    }

    /// It did what it was asked, without a word of complaint; its output.
    #[track_caller]
    pub fn done(self) -> Vec<u8> {
        assert_eq!((self.status, self.err.as_str()), (0, ""));
        self.out
    }

    /// It did what it was asked, and said of an image how many chunks were mended, where any were; its output.
    #[track_caller]
    pub fn mending(self, image: &str, chunks: usize) -> Vec<u8> {
        assert_eq!((self.status, self.err), (0, mended::line(image, chunks)));
        self.out
    }

    #[track_caller]
    pub fn text(self) -> String {
        String::from_utf8(self.done()).expect("text")
    }

    /// It was refused with this line and no output.
    #[track_caller]
    pub fn refused(self, refusal: Refusal) {
        assert!(self.out.is_empty(), "{self:?}");
        assert!(self.err.starts_with(&format!("{refusal}: ")), "{self:?}, not {refusal}");
        assert_eq!((self.status, self.err.matches('\n').count()), (1, 1), "{self:?}");
    }

    /// It ended with this status, these words on standard error and no output.
    #[track_caller]
    pub fn failed(self, status: i32, words: &str) {
        assert!(self.status == status && self.out.is_empty() && self.err.contains(words), "{self:?}");
    }
}

/// A folder that goes when the test is over. Its images are of one format, and the command is told so.
pub struct Folder {
    path: PathBuf,
    format: Format,
}

impl Folder {
    /// One for raw images.
    pub fn new() -> Folder {
        Folder::of(Raw)
    }

    pub fn of(format: Format) -> Folder {
        static COUNT: AtomicUsize = AtomicUsize::new(0);
        let number = COUNT.fetch_add(1, Ordering::Relaxed);
        let path = Path::new(env!("CARGO_TARGET_TMPDIR")).join(format!("{}-{number}", std::process::id()));
        fs::create_dir_all(&path).expect("a folder");
        Folder { path, format }
    }

    pub fn path(&self, name: &str) -> PathBuf {
        self.path.join(name)
    }

    /// A file with these bytes; its path.
    pub fn write(&self, name: &str, bytes: &[u8]) -> PathBuf {
        let path = self.path(name);
        fs::write(&path, bytes).expect("a file");
        path
    }

    pub fn read(&self, name: &str) -> Vec<u8> {
        fs::read(self.path(name)).expect("a file")
    }

    /// The names in it, sorted.
    pub fn names(&self) -> Vec<String> {
        let name = |entry: Result<fs::DirEntry, _>| entry.expect("an entry").file_name().into_string().expect("a name");
        let mut names: Vec<String> = fs::read_dir(&self.path).expect("a folder").map(name).collect();
        names.sort();
        names
    }

    /// The command, in this folder, with these words.
    pub fn command(&self, words: &[&[u8]]) -> Command {
        let mut words: Vec<&OsStr> = words.iter().map(|word| OsStr::from_bytes(word)).collect();
        if self.format == Plain {
            words.insert(1, OsStr::new("--plain"));
        }
        let mut command = Command::new(env!("CARGO_BIN_EXE_ps2card"));
        command.current_dir(&self.path).args(words);
        command.stdin(Stdio::piped()).stdout(Stdio::piped()).stderr(Stdio::piped());
        command
    }

    /// A program of the host, in this folder.
    pub fn tool(&self, name: &str, words: &[&str]) -> Output {
        Command::new(name).current_dir(&self.path).args(words).output().expect("it runs")
    }

    pub fn start(&self, words: &[&[u8]]) -> Child {
        self.command(words).spawn().expect("the command starts")
    }

    /// Runs it on these bytes as standard input.
    pub fn feed(&self, words: &[&[u8]], input: &[u8]) -> Outcome {
        let mut child = self.start(words);
        // It need not read them.
        let _ = child.stdin.take().expect("standard input").write_all(input);
        Outcome::of(child.wait_with_output().expect("the command ends"))
    }

    /// The command with these words, without standard input, where system calls may fail or be slow: `tests/c/shim.c`.
    pub fn shimmed(&self, words: &[&str]) -> Command {
        let shim = self.path(".shim.so");
        if !shim.exists() {
            let source = Path::new(env!("CARGO_MANIFEST_DIR")).join("tests/c/shim.c");
            let made = Command::new("cc")
                .args(["-shared", "-fPIC", "-O1", "-Wall", "-Werror", "-o"])
                .arg(&shim)
                .arg(source)
                .status();
            assert!(made.expect("cc runs").success());
        }
        let words: Vec<&[u8]> = words.iter().map(|word| word.as_bytes()).collect();
        let mut command = self.command(&words);
        command.stdin(Stdio::null()).env("LD_PRELOAD", shim);
        command
    }

    /// Runs it with a system call that fails: "folder sync", "attribute", "owner" or "rename".
    pub fn run_failing(&self, call: &str, words: &[&str]) -> Outcome {
        Outcome::of(self.shimmed(words).env("SHIM_FAILS", call).output().expect("the command ends"))
    }

    pub fn run(&self, words: &[&str]) -> Outcome {
        let words: Vec<&[u8]> = words.iter().map(|word| word.as_bytes()).collect();
        self.feed(&words, b"")
    }
}

impl Drop for Folder {
    fn drop(&mut self) {
        let _ = fs::remove_dir_all(&self.path);
    }
}

/// A time as `--stamp` takes its bytes.
pub fn raw_stamp(time: &[u8; 8]) -> String {
    time.iter().fold("0x".to_string(), |text, byte| text + &format!("{byte:02x}"))
}

/// The wrapper's word for a format.
pub fn in_wrapper(format: Format) -> ps2card::Format {
    match format {
        Raw => ps2card::Format::Raw,
        Plain => ps2card::Format::Plain,
    }
}

/// The reader's word for a format.
pub fn in_reader(format: ps2card::Format) -> Format {
    match format {
        ps2card::Format::Raw => Raw,
        ps2card::Format::Plain => Plain,
    }
}

/// The image of a raw one in a format.
pub fn converted(format: Format, raw: &[u8]) -> Vec<u8> {
    if format == Raw {
        return raw.to_vec();
    }
    let mut plain = vec![0; raw.len() / Raw.page_bytes() * Plain.page_bytes()];
    reader::to_plain(raw, &mut plain).expect("readable pages");
    plain
}

/// The unreadable pages of every file, by path in tree order, as indices in the image; files without any too.
pub fn unreadable_pages(format: Format, image: &[u8]) -> Vec<(Vec<u8>, Vec<usize>)> {
    let checked = Checked::of(format, image).expect("an accepted card");
    let mut files = Vec::new();
    visit(&checked.root, b"/", &mut |path, node| {
        if node.inside.is_none() {
            let pages = (0..(node.entry.length as usize).div_ceil(page::DATA))
                .map(|index| checked.card.slot_page(&node.chain, index));
            files.push((path.to_vec(), pages.filter(|&page| page::read(format, image, page).is_none()).collect()));
        }
    });
    files
}

/// The layout of the largest card, of 64 MiB, as `new` makes it.
pub fn largest() -> Layout {
    let (alloc_offset, backups) = (264, [8191, 8190]);
    Layout {
        clusters: 65_536,
        alloc_offset,
        alloc_end: 65_256,
        table: (9..264).collect(),
        backups,
        ..Layout::standard()
    }
}

/// A raw card with so many empty files in the directory `/SAVE`, `file0000` and on. It is a standard one, or of the
/// largest size where that has no room.
pub fn crowd(entries: usize) -> Vec<u8> {
    let layout = if entries <= 16_000 { Layout::standard() } else { largest() };
    let mut card = Assembly::new(Raw, layout);
    card.directory(&[0, 1], 3);
    let chain: Vec<usize> = (2..2 + (entries + 2).div_ceil(2)).collect();
    card.put(1, 0, &directory(b"SAVE", entries as u32 + 2, chain[0] as u32));
    card.directory(&chain, entries as u32 + 2);
    for number in 0..entries {
        let slot = number + 2;
        card.put(chain[slot / 2], slot % 2, &file(format!("file{number:04}").as_bytes(), 0, NO_CLUSTER));
    }
    card.finish()
}
