//! What people see: standard output, standard error, and on a terminal a line that tells how far a long command is.
//! Standard error may be closed or full: then what it would say is lost, and nothing else.

use std::fs::{File, FileType};
use std::io::{self, IsTerminal, Write};
use std::os::fd::{AsFd, AsRawFd};
use std::os::raw::{c_int, c_ulong, c_ushort};
use std::os::unix::fs::FileTypeExt;
use std::sync::{Mutex, MutexGuard, PoisonError};
use std::thread;
use std::time::{Duration, Instant};

/// What is shorter needs no progress.
const PATIENCE: Duration = Duration::from_secs(1);
const PAUSE: Duration = Duration::from_millis(200);

/// How far the command is. Who writes anything holds it.
struct Progress {
    doing: String,
    /// The loops that it is in, each inside a step of the one before: steps done, of how many, and what they are.
    loops: Vec<(usize, usize, &'static str)>,
    /// How wide the line is that stands on the terminal now.
    width: usize,
    /// Since when it is at work; nothing while the terminal may be somebody else's.
    since: Option<Instant>,
    over: bool,
}

static PROGRESS: Mutex<Progress> =
    Mutex::new(Progress { doing: String::new(), loops: Vec::new(), width: 0, since: None, over: false });

fn progress() -> MutexGuard<'static, Progress> {
    PROGRESS.lock().unwrap_or_else(PoisonError::into_inner)
}

/// Writes to standard output.
pub fn print(bytes: &[u8]) -> io::Result<()> {
    let mut progress = progress();
    progress.erase();
    let mut out = io::stdout().lock();
    out.write_all(bytes)?;
    out.flush()
}

/// Writes a line to standard error, as far as that goes.
pub fn complain(line: &str) {
    let mut progress = progress();
    progress.erase();
    let _ = io::stderr().write_all(format!("{line}\n").as_bytes());
}

/// From now on, what takes longer than a second is told: on a terminal alone, and never while a pipe is written to.
pub fn watch(doing: &str) {
    if !io::stderr().is_terminal() || kind(&io::stdout()).map_or(true, |kind| kind.is_fifo()) {
        return;
    }
    let mut progress = progress();
    (progress.doing, progress.since) = (doing.to_string(), Some(Instant::now()));
    thread::spawn(|| loop {
        thread::sleep(PAUSE);
        let mut progress = self::progress();
        if progress.over {
            return;
        }
        if progress.since.is_some_and(|since| since.elapsed() >= PATIENCE) {
            progress.draw();
        }
    });
}

fn kind(stream: &impl AsFd) -> io::Result<FileType> {
    Ok(File::from(stream.as_fd().try_clone_to_owned()?).metadata()?.file_type())
}

/// Reads standard input; where that is no file, without a word in between, because the terminal may be that of somebody
/// who types, or of the program that writes into the pipe.
pub fn listen<T>(read: impl FnOnce() -> T) -> T {
    if kind(&io::stdin()).is_ok_and(|kind| kind.is_file()) {
        return read();
    }
    progress().since = None;
    let answer = read();
    progress().since = Some(Instant::now());
    answer
}

/// A loop whose steps are told as long as this lives.
pub struct Steps {
    depth: usize,
}

impl Steps {
    /// So many are ahead.
    pub fn ahead(of: usize, what: &'static str) -> Steps {
        let mut progress = progress();
        progress.loops.push((0, of, what));
        Steps { depth: progress.loops.len() - 1 }
    }

    /// So many are done.
    pub fn done(&self, steps: usize) {
        progress().loops[self.depth].0 = steps;
    }
}

impl Drop for Steps {
    fn drop(&mut self) {
        progress().loops.truncate(self.depth);
    }
}

/// The items, each of which is a step.
pub fn steps<I>(items: I, what: &'static str) -> impl Iterator<Item = I::Item>
where
    I: IntoIterator<IntoIter: ExactSizeIterator>,
{
    let items = items.into_iter();
    let steps = Steps::ahead(items.len(), what);
    items.enumerate().map(move |(before, item)| {
        steps.done(before);
        item
    })
}

extern "C" {
    fn ioctl(fd: c_int, request: c_ulong, ...) -> c_int;
}

/// How wide the terminal is; as wide as most where it does not say.
fn columns() -> usize {
    const SIZE: c_ulong = 0x5413; // TIOCGWINSZ
    let mut size: [c_ushort; 4] = [0; 4];
    // SAFETY: the call writes four numbers, the second of them the columns, and nothing else.
    match unsafe { ioctl(io::stderr().as_raw_fd(), SIZE, size.as_mut_ptr()) } {
        0 if size[1] > 0 => size[1].into(),
        _ => 80,
    }
}

/// Nothing more is told.
pub fn finish() {
    let mut progress = progress();
    progress.erase();
    progress.over = true;
}

impl Progress {
    fn draw(&mut self) {
        // A loop of one step tells nothing.
        let loops = self.loops.iter().filter(|(_, of, _)| *of > 1);
        let told: Vec<String> = loops.map(|(done, of, what)| format!("{done} of {of} {what}")).collect();
        let mut line = match told.is_empty() {
            true => format!("ps2card {} ...", self.doing),
            false => format!("ps2card {}: {}", self.doing, told.join(", ")),
        };
        // What goes on in the next row could not be cleared.
        line.truncate(columns() - 1);
        let _ = io::stderr().write_all(format!("\r{line:0$}", self.width).as_bytes());
        self.width = line.len();
    }

    fn erase(&mut self) {
        if self.width > 0 {
            let _ = io::stderr().write_all(format!("\r{:1$}\r", "", self.width).as_bytes());
            self.width = 0;
        }
    }
}
