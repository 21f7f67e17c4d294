//! The command that makes a card: new.

use ps2card::{allowed_clusters, image_file, Card, MOST_CLUSTERS, STANDARD_CLUSTERS};

use super::{changeable, say, Command};
use crate::arguments::{Call, Opt, Syntax};
use crate::failure::Failure;

pub const NEW: Command = Command {
    syntax: Syntax {
        name: "new",
        alias: Some("format"),
        words: 1..=2,
        options: &[Opt::Stamp, Opt::Plain],
        help: include_str!("../help/new.txt"),
    },
    run: new,
};

fn new(call: &Call) -> Result<(), Failure> {
    let image = changeable(call)?;
    let clusters = call.number(1, "N")?.unwrap_or(STANDARD_CLUSTERS);
    if !allowed_clusters(clusters) {
        return Err(call.usage(format!("N is a multiple of 8 from 32 to {MOST_CLUSTERS}, not {clusters}")));
    }
    let card =
        Card::fresh(call.format(), clusters, &call.stamp()).map_err(|refusal| Failure::refused(refusal, image))?;
    image_file::create(image, &mut |notice| say(image, notice), &card)
        .map_err(|error| Failure::of_image("make", image, error))
}
