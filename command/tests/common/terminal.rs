//! The command on a terminal: what it writes there, and what stands there in the end.

use std::ffi::CStr;
use std::fs::File;
use std::io::Read;
use std::os::fd::AsRawFd;
use std::os::raw::{c_char, c_int, c_ulong, c_ushort};
use std::os::unix::fs::OpenOptionsExt;
use std::process::{Child, Command, Stdio};
use std::time::{Duration, Instant};

extern "C" {
    fn ioctl(fd: c_int, request: c_ulong, ...) -> c_int;
    fn unlockpt(master: c_int) -> c_int;
    fn ptsname_r(master: c_int, name: *mut c_char, size: usize) -> c_int;
}

/// Both ends of a terminal, which no other child gets.
pub struct Terminal {
    pub master: File,
    pub slave: File,
}

impl Terminal {
    pub fn new(columns: c_ushort) -> Terminal {
        const NOT_MINE: c_int = 0o400; // O_NOCTTY
        const SET_SIZE: c_ulong = 0x5414; // TIOCSWINSZ
        let open = |path: &str| File::options().read(true).write(true).custom_flags(NOT_MINE).open(path).expect(path);
        let master = open("/dev/ptmx");
        let (fd, mut name, size): (_, [c_char; 64], [c_ushort; 4]) = (master.as_raw_fd(), [0; 64], [24, columns, 0, 0]);
        // SAFETY: the terminal is open; the name has so many bytes, which the call writes at most; the four numbers are
        // only read.
        let answers =
            unsafe { [unlockpt(fd), ptsname_r(fd, name.as_mut_ptr(), name.len()), ioctl(fd, SET_SIZE, size.as_ptr())] };
        assert_eq!(answers, [0; 3], "{}", std::io::Error::last_os_error());
        // SAFETY: the call ended the name with a zero.
        let slave = open(unsafe { CStr::from_ptr(name.as_ptr()) }.to_str().expect("a path"));
        Terminal { master, slave }
    }

    /// Starts a command here, with standard output here or elsewhere.
    pub fn start(self, mut command: Command, output: Option<Stdio>) -> OnTerminal {
        let Terminal { master, slave } = self;
        command.stderr(slave.try_clone().expect("another")).stdout(output.unwrap_or_else(|| slave.into()));
        OnTerminal { master, start: Instant::now(), child: command.spawn().expect("it starts") }
    }
}

/// A command that runs with a terminal as standard error.
pub struct OnTerminal {
    pub master: File,
    pub child: Child,
    start: Instant,
}

/// What a terminal was told, and how the command ended.
#[derive(Debug)]
pub struct Shown {
    pub text: String,
    pub took: Duration,
    pub status: i32,
}

impl OnTerminal {
    /// Starts it on one of the usual width.
    pub fn start(command: Command, output: Option<Stdio>) -> OnTerminal {
        Terminal::new(80).start(command, output)
    }

    pub fn end(mut self) -> Shown {
        let mut text = Vec::new();
        // The end of a terminal is an error.
        let _ = self.master.read_to_end(&mut text);
        let status = self.child.wait().expect("an end").code().unwrap_or(-1);
        Shown { text: String::from_utf8(text).expect("text"), took: self.start.elapsed(), status }
    }
}

impl Shown {
    /// Runs it, with standard output on the terminal too, or elsewhere.
    pub fn of(command: Command, output: Option<Stdio>) -> Shown {
        OnTerminal::start(command, output).end()
    }

    /// The numbers between this start and this end of a line that is written over.
    pub fn steps(&self, start: &str, end: &str) -> Vec<usize> {
        let step = |line: &str| line.strip_prefix(start)?.trim_end().strip_suffix(end)?.parse().ok();
        self.text.split('\r').filter_map(step).collect()
    }

    /// What stands there in the end, without blanks at the lines' ends.
    pub fn screen(&self) -> String {
        let line = |written: &str| {
            let mut line: Vec<char> = Vec::new();
            for part in written.split('\r').map(|part| part.chars().collect::<Vec<char>>()) {
                let rest = line.split_off(part.len().min(line.len()));
                line = [part, rest].concat();
            }
            line.into_iter().collect::<String>().trim_end().to_string()
        };
        self.text.split('\n').map(line).collect::<Vec<String>>().join("\n")
    }
}
