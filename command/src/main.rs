//! The command `ps2card`: PlayStation 2 memory card images, raw and plain, at a shell.

mod arguments;
mod command;
mod failure;
mod host_time;
mod output;
mod sha256;
mod shift;

use std::ffi::OsString;
use std::os::raw::c_int;
use std::process::ExitCode;

use arguments::{Request, Syntax};
use failure::Failure;

/// The help of all commands.
const HELP: &str = include_str!("help/ps2card.txt");
const VERSION: &str = concat!("ps2card ", env!("CARGO_PKG_VERSION"), "\n");

fn main() -> ExitCode {
    ignore_size_limit();
    let words: Vec<OsString> = std::env::args_os().skip(1).collect();
    let commands: Vec<&'static Syntax> = command::ALL.iter().map(|command| &command.syntax).collect();
    let status = match arguments::parse(words, &commands).and_then(run) {
        Ok(()) => 0,
        Err(failure) => failure.tell(),
    };
    output::finish();
    ExitCode::from(status)
}

fn run(request: Request) -> Result<(), Failure> {
    match request {
        Request::Help(None) => command::print(HELP.as_bytes()),
        Request::Help(Some(syntax)) => command::print(syntax.help.as_bytes()),
        Request::Version => command::print(VERSION.as_bytes()),
        Request::Run(place, call) => {
            let command = command::ALL[place];
            output::watch(command.syntax.name);
            (command.run)(&call)
        }
    }
}

extern "C" {
    fn signal(number: c_int, action: usize) -> usize;
}

/// A file that grows beyond the user's limit is then an error of its write, which is told and cleaned up after,
/// instead of a signal that ends the command.
fn ignore_size_limit() {
    const SIGXFSZ: c_int = 25;
    const IGNORE: usize = 1;
    // SAFETY: no other thread runs yet, and the action is the system's own, no function of this program.
    unsafe { signal(SIGXFSZ, IGNORE) };
}
