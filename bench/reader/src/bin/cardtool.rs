//! A command for developers: looks at an image, or builds one.

use std::process::ExitCode;

use reader::build::{self, random};
use reader::{list, program, tree_text, Format, Refusal};

const USAGE: &str = "usage: cardtool [--plain] check FILE | list FILE [MINUTES] | tree FILE
       cardtool [--plain] bench OUT | standard OUT | random SEED OUT
       cardtool samples ROOT";

fn main() -> ExitCode {
    let arguments: Vec<String> = std::env::args().skip(1).collect();
    let arguments: Vec<&str> = arguments.iter().map(String::as_str).collect();
    match run(&arguments) {
        Ok(text) => {
            print!("{text}");
            ExitCode::SUCCESS
        }
        Err(message) => {
            eprintln!("{message}");
            ExitCode::FAILURE
        }
    }
}

fn run(arguments: &[&str]) -> Result<String, String> {
    let load = |file: &str| std::fs::read(file).map_err(|error| format!("{file}: {error}"));
    let store = |file: &str, image: Vec<u8>| {
        std::fs::write(file, image).map(|()| String::new()).map_err(|error| format!("{file}: {error}"))
    };
    let (format, command) = match arguments {
        ["--plain", command @ ..] => (Format::Plain, command),
        command => (Format::Raw, command),
    };
    match *command {
        ["check", file] => check(format, &load(file)?).map_err(|refusal| refusal.to_string()),
        ["list", file] => Ok(list(format, &load(file)?, 0)),
        ["list", file, minutes] => {
            let minutes = minutes.parse().map_err(|_| USAGE.to_string())?;
            Ok(list(format, &load(file)?, minutes))
        }
        ["tree", file] => tree_text(format, &load(file)?).map_err(|refusal| refusal.to_string()),
        ["bench", out] => store(out, build::bench(format)),
        ["standard", out] => store(out, build::standard(format)),
        ["random", seed, out] => {
            let seed = seed.parse().map_err(|_| USAGE.to_string())?;
            store(out, random::random(format, seed).image)
        }
        ["samples", root] if format == Format::Raw => samples(root).map_err(|error| format!("{root}: {error}")),
        _ => Err(USAGE.to_string()),
    }
}

/// Writes the images of the programs `list` and `cards`, what each prints, and the sample card into the repository at
/// `root`.
fn samples(root: &str) -> std::io::Result<String> {
    let data = format!("{root}/crates/cards/data");
    std::fs::create_dir_all(&data)?;
    for (name, image) in build::samples::all() {
        std::fs::write(format!("{data}/{name}.ps2"), image)?;
    }
    std::fs::write(format!("{root}/crates/cards/stdout"), build::samples::printed())?;
    std::fs::write(format!("{root}/crates/list/stdin"), build::samples::save())?;
    std::fs::write(format!("{root}/crates/list/stdout"), program(&build::samples::save()))?;
    std::fs::create_dir_all(format!("{root}/samples"))?;
    std::fs::write(format!("{root}/samples/bench.ps2"), build::samples::shop())?;
    Ok(String::new())
}

fn check(format: Format, image: &[u8]) -> Result<String, Refusal> {
    Ok(reader::check(format, image)?.to_string())
}
