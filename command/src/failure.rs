//! What ends the command early: its line on standard error and its exit status.

use std::io;
use std::path::Path;

use ps2card::image_file::Error;
use ps2card::Refusal;

use crate::output;

pub enum Failure {
    /// Status 1, by the rules of the card: the refusal, what more is to say of it, and where it was met, image and path.
    Refused(Refusal, String, String),
    /// Status 2: the command line is wrong; the usage line of its command, where that is known.
    Usage(String, Option<&'static str>),
    /// Status 3: a file of the host cannot be read or written.
    Host(String),
    /// Status 3, without a word: nobody reads standard output any more.
    Unread,
    /// This status; all is said already.
    Told(u8),
}

/// The status of a refusal, of cards that differ and of pages that cannot be read.
pub const REFUSED: u8 = 1;

impl Failure {
    /// A refusal that concerns the image alone.
    pub fn refused(refusal: Refusal, image: &Path) -> Failure {
        Failure::Refused(refusal, String::new(), shown(image))
    }

    /// A refusal that concerns a path on the card; where the card itself is refused, the path has no part in it.
    pub fn refused_at(refusal: Refusal, image: &Path, path: &[u8]) -> Failure {
        match refusal.number() {
            1 | 3..=7 => Failure::refused(refusal, image),
            _ => Failure::Refused(refusal, String::new(), format!("{}: {}", shown(image), path.escape_ascii())),
        }
    }

    /// Says more of an image's size, or of what is locked, where this is what is refused.
    pub fn with_hint(self, of: Refusal, hint: &str) -> Failure {
        match self {
            Failure::Refused(refusal, _, at) if refusal == of => Failure::Refused(refusal, hint.to_string(), at),
            other => other,
        }
    }

    /// A host error on a file.
    pub fn host(doing: &str, path: &Path, error: io::Error) -> Failure {
        Failure::Host(format!("cannot {doing} {}: {error}", shown(path)))
    }

    /// What a change of an image file met.
    pub fn of_image(doing: &str, image: &Path, error: Error) -> Failure {
        match error {
            Error::Refused(refusal) => Failure::refused(refusal, image),
            Error::Host(error) => Failure::host(doing, image, error),
        }
    }

    /// What standard output met.
    pub fn of_output(error: io::Error) -> Failure {
        match error.kind() {
            io::ErrorKind::BrokenPipe => Failure::Unread,
            _ => Failure::Host(format!("cannot write to standard output: {error}")),
        }
    }

    /// Says the line and gives the status.
    pub fn tell(self) -> u8 {
        match self {
            Failure::Refused(refusal, hint, at) => {
                output::complain(&format!("{refusal}{hint} ({at})"));
                REFUSED
            }
            Failure::Usage(words, usage) => {
                let usage = usage.unwrap_or("usage: ps2card COMMAND IMAGE ...; ps2card --help tells more");
                output::complain(&format!("ps2card: {words}\n{usage}"));
                2
            }
            Failure::Host(words) => {
                output::complain(&format!("ps2card: {words}"));
                3
            }
            Failure::Unread => 3,
            Failure::Told(status) => status,
        }
    }
}

/// A file of the host as people know it.
pub fn shown(path: &Path) -> String {
    match path == Path::new("-") {
        true => "standard input".to_string(),
        false => path.display().to_string(),
    }
}
