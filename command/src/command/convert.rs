//! The command that writes a card in the other format: convert.

use std::path::Path;

use ps2card::{image_file, Format, Refusal};

use super::image::Image;
use super::{say, Command};
use crate::arguments::{Call, Opt, Syntax};
use crate::failure::Failure;

pub const CONVERT: Command = Command {
    syntax: Syntax {
        name: "convert",
        alias: None,
        words: 2..=2,
        options: &[Opt::ToPlain, Opt::ToRaw],
        help: include_str!("../help/convert.txt"),
    },
    run: convert,
};

fn convert(call: &Call) -> Result<(), Failure> {
    let to = match [call.asked(Opt::ToPlain), call.asked(Opt::ToRaw)] {
        [true, false] => Format::Plain,
        [false, true] => Format::Raw,
        _ => return Err(call.usage("convert takes one of --to-plain and --to-raw".to_string())),
    };
    let new = call.file(1);
    if new == Path::new("-") {
        return Err(call.usage("NEW is a file to make".to_string()));
    }
    let image = Image::load(to.other(), call.image())?;
    let converted = match to {
        Format::Plain => image.card.to_plain(),
        Format::Raw => image.card.to_raw(),
    };
    // Nothing but the length and the pages is judged, before or after.
    let hint = size_hint(to, image.card.image().len());
    let converted =
        converted.map_err(|refusal| Failure::refused(refusal, image.name).with_hint(Refusal::BadLength, hint))?;
    image_file::create_unjudged(new, &mut |notice| say(new, notice), &converted)
        .map_err(|error| Failure::of_image("make", new, error))
}

/// What is said of an image whose size is refused, where it is a card's in the format that it is to get.
fn size_hint(to: Format, bytes: usize) -> &'static str {
    match to {
        _ if !to.is_length(bytes) => "",
        Format::Plain => "; its size is that of a plain card already",
        Format::Raw => "; its size is that of a raw card already",
    }
}
