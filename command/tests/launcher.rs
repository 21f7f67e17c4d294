//! The launcher `./ps2card` on its first use, in a repository of its own with an `rt` and a `cargo` that only play their
//! part: what it says, what needs no proof, where it cannot write, and what a signal ends.

mod common;

use std::fs;
use std::io::{BufRead, BufReader};
use std::os::unix::fs::{symlink, PermissionsExt};
use std::os::unix::process::ExitStatusExt;
use std::path::Path;
use std::process::{Child, Command, Output, Stdio};
use std::thread::sleep;
use std::time::{Duration, Instant};

use common::Folder;

const ROOT: &str = concat!(env!("CARGO_MANIFEST_DIR"), "/..");

/// Proves two crates, as rt tells of it, and writes the archive: the lowest one is proved already. It takes its time over
/// both.
const PROVES: &str = "#!/bin/sh
echo 'rt: chose --jobs 2 for middle'
sleep 2
echo './proofs/f/Answers.antt:1:1: note: large solution'
echo 'fn middle::f: proved'
echo 'crate middle: modules loaded=0 checked=13'
echo 'logic=proved functions=1'
echo 'rt: chose --jobs 2 for ps2card'
sleep 2
echo archive >out/libps2card.a
echo 'logic=proved functions=12'
";

/// Compiles a command that repeats its words.
const COMPILES: &str = "#!/bin/sh
mkdir -p build/release
printf '#!/bin/sh\\necho \"ran $*\"\\n' >build/release/ps2card
chmod +x build/release/ps2card
";

fn program(path: &Path, text: &str) {
    fs::write(path, text).expect("a program");
    fs::set_permissions(path, fs::Permissions::from_mode(0o755)).expect("its permissions");
}

/// A repository before its first use: the launcher and what it reads, two crates below the library's and one beside.
fn repository(rt: &str) -> Folder {
    let folder = Folder::new();
    for made in ["crates/middle/proofs/f", "crates/ps2card", "command/src/help", "tools"] {
        fs::create_dir_all(folder.path(made)).expect("a folder");
    }
    for copied in ["ps2card", "command/build.sh", "command/Cargo.toml", "command/src/help/ps2card.txt"] {
        fs::copy(Path::new(ROOT).join(copied), folder.path(copied)).expect("a copy");
    }
    folder
        .write("crates.txt", b"low:\n# the middle one\nmiddle: low check\nps2card staticlib: middle low\nother: low\n");
    folder.write("crates/middle/proofs/f/Answers.antt", &[b'x'; 150_000]);
    folder.write("Cargo.toml", b"");
    folder.write("Cargo.lock", b"");
    program(&folder.path("tools/rt"), rt);
    program(&folder.path("tools/cargo"), COMPILES);
    folder
}

fn launch(folder: &Folder, words: &[&str]) -> Command {
    // A shell in the background may have told its children to ignore some signals.
    let mut command = Command::new("env");
    let path = format!("{}:/usr/bin:/bin", folder.path("tools").display());
    command
        .arg("--default-signal")
        .arg(folder.path("ps2card"))
        .args(words)
        .current_dir("/")
        .env("PATH", path)
        .stdin(Stdio::null());
    command
}

fn texts(output: &Output) -> (String, String) {
    let text = |bytes: &[u8]| String::from_utf8(bytes.to_vec()).expect("text");
    (text(&output.stdout), text(&output.stderr))
}

/// Says which crate of how many and about how long, and nothing that rt or cargo said; then runs the command, and the
/// next time at once.
#[test]
fn first_use() {
    let folder = repository(PROVES);
    let output = launch(&folder, &["ls", "a card"]).output().expect("it runs");
    let (out, err) = texts(&output);
    assert_eq!((output.status.code(), out.as_str()), (Some(0), "ran ls a card\n"), "{err}");
    let lines: Vec<&str> = err.lines().collect();
    assert_eq!(lines.len(), 3, "{err}");
    // 150 seconds for the proofs of the middle crate, and four for each crate.
    assert_eq!(lines[0], "ps2card: proving the library: crate 2 of 3, about 3 minutes");
    assert_eq!(lines[1], "ps2card: proving the library: crate 3 of 3, about 1 minute");
    assert_eq!(lines[2], "ps2card: compiling the command ...");
    assert!(fs::read_to_string(folder.path("build/library.log")).expect("a log").contains("functions=12"));

    let again = launch(&folder, &["ls"]).output().expect("it runs");
    assert_eq!(texts(&again), ("ran ls\n".to_string(), String::new()));
}

/// A library that is not proved is status 3: which crate, and where all of it stands.
#[test]
fn not_proved() {
    let fails = "#!/bin/sh
echo 'rt: chose --jobs 2 for middle'
echo 'f.antt:1:1: error: no'
echo 'fn middle::f: not proved'
echo 'rt: the library middle did not build, so nothing above it was checked'
exit 1
";
    let folder = repository(fails);
    let output = launch(&folder, &["ls"]).output().expect("it runs");
    let (out, err) = texts(&output);
    assert_eq!((output.status.code(), out.as_str()), (Some(3), ""), "{err}");
    assert!(
        err.contains("fn middle::f: not proved\n") && err.contains("ps2card: the library is not proved; "),
        "{err}"
    );
    fs::remove_file(folder.path("tools/rt")).expect("no rt");
    let output = launch(&folder, &["ls"]).output().expect("it runs");
    assert_eq!((output.status.code(), texts(&output).1.contains("ps2card: rt is needed")), (Some(3), true));
}

/// Help and version, and the lack of a command, need no proof and no compiler, and are what the command itself says.
#[test]
fn words_without_a_proof() {
    let folder = repository("#!/bin/sh\nexit 1\n");
    fs::remove_file(folder.path("tools/cargo")).expect("no cargo");
    let help = Path::new(ROOT).join("command/src/help");
    for text in fs::read_dir(&help).expect("the texts") {
        let name = text.expect("a text").file_name();
        fs::copy(help.join(&name), folder.path("command/src/help").join(&name)).expect("a copy");
    }
    let general = [&["--help"][..], &["-h"], &["help"], &["--version"], &["-V"], &[]];
    let of_one = [&["put", "--help"][..], &["put", "-h", "x"], &["help", "put"], &["rm", "--help"], &["help", "df"]];
    for words in general.into_iter().chain(of_one) {
        let told = launch(&folder, words).output().expect("it runs");
        let real = Command::new(env!("CARGO_BIN_EXE_ps2card")).args(words).output().expect("it runs");
        assert_eq!((texts(&told), told.status), (texts(&real), real.status), "{words:?}");
        assert!(real.stdout.len() + real.stderr.len() > 10, "{words:?}");
    }
    assert!(!folder.path("build").exists() && !folder.path("crates/ps2card/out").exists());
}

/// A folder that cannot be written, even by root, is status 3 in one plain line, before anything is proved.
#[test]
fn unwritable() {
    for blocked in ["build", "crates/ps2card/out"] {
        let folder = repository("#!/bin/sh\ntouch \"$0.called\"\nexit 1\n");
        symlink("/proc", folder.path(blocked)).expect("a link");
        let output = launch(&folder, &["ls"]).output().expect("it runs");
        let (out, err) = texts(&output);
        assert_eq!((output.status.code(), out.as_str(), err.lines().count()), (Some(3), "", 1), "{err}");
        assert!(err.starts_with("ps2card: cannot write to ") && err.contains(blocked), "{err}");
        assert!(!folder.path("tools/rt.called").exists());
    }
    // A file of the launcher's own that cannot be written.
    for blocked in ["build/ps2card.lock", "build/library.log"] {
        let folder = repository("#!/bin/sh\nexit 1\n");
        fs::create_dir_all(folder.path(blocked)).expect("a folder in its place");
        let output = launch(&folder, &["ls"]).output().expect("it runs");
        let (out, err) = texts(&output);
        assert_eq!((output.status.code(), out.as_str(), err.lines().count()), (Some(3), "", 1), "{err}");
        assert!(err.starts_with("ps2card: cannot write to ") && err.contains(blocked), "{err}");
    }
}

/// Whether a process runs; one that has ended and waits to be counted does not.
fn runs(process: &str) -> bool {
    let state = fs::read_to_string(format!("/proc/{process}/stat")).unwrap_or_default();
    state.rsplit(") ").next().is_some_and(|rest| !rest.is_empty() && !rest.starts_with('Z'))
}

fn wait(child: &mut Child) -> std::process::ExitStatus {
    let began = Instant::now();
    while began.elapsed() < Duration::from_secs(20) {
        if let Some(status) = child.try_wait().expect("a child") {
            return status;
        }
        sleep(Duration::from_millis(20));
    }
    child.kill().expect("an end");
    panic!("the launcher goes on");
}

/// A signal ends rt, the prover that it started, and the launcher.
#[test]
fn signals() {
    for (name, number) in [("INT", 2), ("TERM", 15), ("HUP", 1)] {
        let folder =
            repository("#!/bin/sh\nsleep 300 &\necho 'rt: chose --jobs 2 for low'\necho $$ $! >\"$0.ids\"\nwait\n");
        let mut child = launch(&folder, &["ls"]).stderr(Stdio::piped()).spawn().expect("it runs");
        let mut lines = BufReader::new(child.stderr.take().expect("its words")).lines();
        assert!(lines.next().is_some_and(|line| line.is_ok_and(|line| line.contains("proving the library"))));
        let ids = folder.path("tools/rt.ids");
        while !fs::read_to_string(&ids).is_ok_and(|text| text.ends_with('\n')) {
            sleep(Duration::from_millis(20));
        }
        let text = fs::read_to_string(&ids).expect("two numbers");
        let started: Vec<&str> = text.split_whitespace().collect();
        assert!(started.len() == 2 && started.iter().all(|id| runs(id)), "{text}");
        let sent =
            Command::new("sh").arg("-c").arg(format!("kill -s {name} {}", child.id())).status().expect("it runs");
        assert!(sent.success());
        assert_eq!(wait(&mut child).signal(), Some(number));
        let began = Instant::now();
        while started.iter().any(|id| runs(id)) {
            assert!(began.elapsed() < Duration::from_secs(10), "{name} left {text}");
            sleep(Duration::from_millis(20));
        }
    }
}
