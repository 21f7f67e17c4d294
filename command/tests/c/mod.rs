//! C programs against the header and the library.
#![allow(dead_code)]

use std::path::{Path, PathBuf};
use std::process::{Command, Output};

use crate::common::Folder;

/// How a program is compiled: every warning is an error.
#[derive(Clone, Copy, Debug)]
pub enum Way {
    C99,
    /// With the sanitizers of addresses and of undefined behaviour, which end it at the first fault.
    Sanitized,
    Cpp,
}

pub const WAYS: [Way; 3] = [Way::C99, Way::Sanitized, Way::Cpp];

impl Way {
    fn compiler(self) -> Command {
        let (name, words): (_, &[&str]) = match self {
            Way::C99 => ("cc", &["-std=c99"]),
            Way::Sanitized => ("cc", &["-std=c11", "-g", "-fsanitize=address,undefined", "-fno-sanitize-recover=all"]),
            Way::Cpp => ("g++", &["-std=c++11", "-x", "c++"]),
        };
        let mut command = Command::new(name);
        command.args(words).args(["-O1", "-Wall", "-Wextra", "-Werror", "-pedantic", "-Wconversion", "-Wshadow"]);
        command
    }
}

/// The root of the repository.
pub fn root() -> PathBuf {
    Path::new(env!("CARGO_MANIFEST_DIR")).join("..")
}

/// A source of these tests.
pub fn test(name: &str) -> PathBuf {
    root().join("command/tests/c").join(format!("{name}.c"))
}

pub struct Program(PathBuf);

/// Compiles a source against the repository's header and the archive.
pub fn compiled(folder: &Folder, source: PathBuf, way: Way) -> Program {
    let include = root().join("include").display().to_string();
    compiled_by(folder, source, way, &["-pthread", "-I", &include], &[ps2card_sys::ARCHIVE])
}

/// Compiles a source with these words before and behind it.
pub fn compiled_by(folder: &Folder, source: PathBuf, way: Way, before: &[&str], behind: &[&str]) -> Program {
    let program = folder.path("program");
    let mut compiler = way.compiler();
    compiler.args(before).arg(source).args(["-x", "none"]).args(behind).arg("-o").arg(&program);
    let output = compiler.output().expect("the compiler runs");
    assert!(output.status.success(), "{way:?}: {}", String::from_utf8_lossy(&output.stderr));
    Program(program)
}

/// What a program did.
pub struct Done(pub Output);

impl Program {
    /// Runs it on files of the folder; an option stays what it is.
    pub fn run(&self, folder: &Folder, words: &[&str]) -> Done {
        let word = |&word: &&str| if word.starts_with("--") { PathBuf::from(word) } else { folder.path(word) };
        Done(Command::new(&self.0).args(words.iter().map(word)).output().expect("it runs"))
    }
}

impl Done {
    /// What it printed; it ended well and without complaint.
    #[track_caller]
    pub fn text(self) -> String {
        assert!(self.0.status.success() && self.0.stderr.is_empty(), "{:?}", self.0);
        String::from_utf8(self.0.stdout).expect("text")
    }
}
