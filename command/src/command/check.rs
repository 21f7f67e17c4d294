//! The command that checks cards: check.

use std::path::Path;

use ps2card::Format;

use super::image::Image;
use super::{print, Command};
use crate::arguments::{Call, Opt, Syntax};
use crate::failure::{shown, Failure};
use crate::output;

pub const CHECK: Command = Command {
    syntax: Syntax {
        name: "check",
        alias: Some("df"),
        words: 1..=usize::MAX,
        options: &[Opt::Plain],
        help: include_str!("../help/check.txt"),
    },
    run: |call| each(call, check),
};

fn check(format: Format, name: &Path) -> Result<(), Failure> {
    let counts = Image::load(format, name)?.check()?;
    // A cluster has 1,024 bytes, so that the free ones, which a change can take, are the free room in KB.
    let text = format!(
        "{}: OK, {} KB free\ncard {}\nfree {}\nreached {}\norphaned {}\nheld {}\nmended {}\n",
        shown(name),
        counts.free,
        counts.clusters,
        counts.free,
        counts.reached,
        counts.orphaned,
        counts.held,
        counts.mended
    );
    print(text.as_bytes())
}

/// Does it with each image, also after one that failed; then the gravest status counts.
pub fn each(call: &Call, look: impl Fn(Format, &Path) -> Result<(), Failure>) -> Result<(), Failure> {
    let mut worst = 0;
    for name in output::steps(call.images()?, "images") {
        match look(call.format(), name) {
            Ok(()) => {}
            Err(Failure::Unread) => return Err(Failure::Unread),
            Err(failure) => worst = worst.max(failure.tell()),
        }
    }
    match worst {
        0 => Ok(()),
        status => Err(Failure::Told(status)),
    }
}
