//! The command line: which command, its words and its options.

use std::ffi::{OsStr, OsString};
use std::ops::RangeInclusive;
use std::os::unix::ffi::OsStrExt;
use std::path::Path;

use ps2card::{Format, Stamp};

use crate::failure::Failure;
use crate::shift;

/// What a command is called and what it takes.
pub struct Syntax {
    pub name: &'static str,
    /// What people of other systems call it.
    pub alias: Option<&'static str>,
    /// How many words it takes, the images included.
    pub words: RangeInclusive<usize>,
    pub options: &'static [Opt],
    /// The whole help text; its first line tells the usage.
    pub help: &'static str,
}

impl Syntax {
    pub fn usage(&self) -> &'static str {
        self.help.lines().next().unwrap_or_default()
    }

    fn is_named(&self, word: &OsStr) -> bool {
        word == self.name || self.alias.is_some_and(|alias| word == alias)
    }
}

/// The options.
#[derive(Clone, Copy, Debug, PartialEq, Eq)]
pub enum Opt {
    Stamp,
    As,
    Minutes,
    Zone,
    Recursive,
    Long,
    BytesOnly,
    Plain,
    PlainA,
    PlainB,
    ToPlain,
    ToRaw,
}

const OPTIONS: [(&str, Opt); 12] = [
    ("--stamp", Opt::Stamp),
    ("--as", Opt::As),
    ("--minutes", Opt::Minutes),
    ("--zone", Opt::Zone),
    ("-r", Opt::Recursive),
    ("-l", Opt::Long),
    ("--bytes-only", Opt::BytesOnly),
    ("--plain", Opt::Plain),
    ("--plain-a", Opt::PlainA),
    ("--plain-b", Opt::PlainB),
    ("--to-plain", Opt::ToPlain),
    ("--to-raw", Opt::ToRaw),
];

impl Opt {
    /// Whether a value follows.
    fn has_value(self) -> bool {
        matches!(self, Opt::Stamp | Opt::As | Opt::Minutes | Opt::Zone)
    }
}

pub enum Request {
    Help(Option<&'static Syntax>),
    Version,
    /// The command's place in the list of all, and what it was given.
    Run(usize, Call),
}

/// What a command was given.
pub struct Call {
    syntax: &'static Syntax,
    words: Vec<OsString>,
    options: Vec<(Opt, OsString)>,
    stamp: Option<Stamp>,
    minutes: Option<i32>,
}

impl Call {
    /// The image file.
    pub fn image(&self) -> &Path {
        Path::new(&self.words[0])
    }

    /// All words, as image files. Standard input can be only one of them.
    pub fn images(&self) -> Result<Vec<&Path>, Failure> {
        match self.words.iter().filter(|word| *word == "-").count() {
            0 | 1 => Ok(self.words.iter().map(Path::new).collect()),
            _ => Err(self.usage("standard input has one image only".to_string())),
        }
    }

    /// A word after the image, as the host names files.
    pub fn file(&self, place: usize) -> &Path {
        Path::new(&self.words[place])
    }

    /// A word after the image, as bytes: a path on the card.
    pub fn bytes(&self, place: usize) -> &[u8] {
        self.words[place].as_bytes()
    }

    pub fn has(&self, place: usize) -> bool {
        place < self.words.len()
    }

    pub fn asked(&self, option: Opt) -> bool {
        self.value(option).is_some()
    }

    /// The format of the image, or of every one: as said, and never guessed.
    pub fn format(&self) -> Format {
        self.format_by(Opt::Plain)
    }

    /// Plain where this option says so.
    pub fn format_by(&self, option: Opt) -> Format {
        match self.asked(option) {
            true => Format::Plain,
            false => Format::Raw,
        }
    }

    /// An option's value, the last one given.
    pub fn value(&self, option: Opt) -> Option<&OsStr> {
        self.options.iter().rev().find(|(given, _)| *given == option).map(|(_, value)| value.as_os_str())
    }

    /// A word that must be a decimal number, if it is there.
    pub fn number<T: std::str::FromStr>(&self, place: usize, name: &str) -> Result<Option<T>, Failure> {
        let Some(word) = self.words.get(place) else { return Ok(None) };
        let digits = word.to_str().filter(|text| text.bytes().all(|byte| byte.is_ascii_digit()));
        match digits.and_then(|text| text.parse().ok()) {
            Some(number) => Ok(Some(number)),
            None => Err(self.usage(format!("{name} is no number that fits: {}", word.display()))),
        }
    }

    /// The time of the change: as given, or now in Japan.
    pub fn stamp(&self) -> Stamp {
        self.stamp.unwrap_or_else(Stamp::now)
    }

    /// How far the times of a listing are to be ahead of Japan's, where that was said.
    pub fn minutes(&self) -> Option<i32> {
        self.minutes
    }

    /// An error in this command's line.
    pub fn usage(&self, words: String) -> Failure {
        Failure::Usage(words, Some(self.syntax.usage()))
    }
}

/// Takes a command line apart.
pub fn parse(words: Vec<OsString>, commands: &[&'static Syntax]) -> Result<Request, Failure> {
    let named = |word: &OsStr| {
        let place = commands.iter().position(|syntax| syntax.is_named(word));
        place.ok_or_else(|| Failure::Usage(format!("no command {}", word.display()), None))
    };
    let mut words = words.into_iter();
    let (mut place, mut rest, mut options, mut options_over) = (None, Vec::new(), Vec::new(), false);
    while let Some(word) = words.next() {
        let usage = place.map(|place: usize| commands[place].usage());
        match word.as_bytes() {
            b"--" if !options_over => options_over = true,
            b"--help" | b"-h" if !options_over => return Ok(Request::Help(place.map(|place| commands[place]))),
            b"--version" | b"-V" if !options_over => return Ok(Request::Version),
            b"help" if place.is_none() => {
                let of = words.find(|word| !word.as_bytes().starts_with(b"-"));
                return Ok(Request::Help(of.map(|word| named(&word)).transpose()?.map(|place| commands[place])));
            }
            option if option.len() > 1 && option[0] == b'-' && !options_over => {
                options.push(parse_option(option, &mut words, usage)?);
            }
            _ if place.is_none() => place = Some(named(&word)?),
            _ => rest.push(word),
        }
    }
    let place = place.ok_or_else(|| Failure::Usage("a command is needed".to_string(), None))?;
    let syntax = commands[place];
    let wrong = |words: &str| Err(Failure::Usage(format!("{} {words}", syntax.name), Some(syntax.usage())));
    if !syntax.words.contains(&rest.len()) {
        return wrong(if rest.len() < *syntax.words.start() { "needs more words" } else { "takes fewer words" });
    }
    for (name, option) in OPTIONS {
        if options.iter().any(|(given, _)| *given == option) && !syntax.options.contains(&option) {
            return wrong(&format!("takes no {name}"));
        }
    }
    let mut call = Call { syntax, words: rest, options, stamp: None, minutes: None };
    call.stamp = call.value(Opt::Stamp).map(|text| parse_stamp(text, &call)).transpose()?;
    call.minutes = parse_minutes(&call)?;
    Ok(Request::Run(place, call))
}

/// An option with its value, which stands behind `=` or is the next word; empty for one that takes none.
fn parse_option(
    word: &[u8],
    words: &mut impl Iterator<Item = OsString>,
    usage: Option<&'static str>,
) -> Result<(Opt, OsString), Failure> {
    let equals = word.iter().position(|&byte| byte == b'=');
    let (name, value) = (&word[..equals.unwrap_or(word.len())], equals.map(|place| &word[place + 1..]));
    let known =
        OPTIONS.iter().find(|(known, option)| known.as_bytes() == name && (value.is_none() || option.has_value()));
    let Some(&(name, option)) = known else {
        return Err(Failure::Usage(format!("no option {}", OsStr::from_bytes(word).display()), usage));
    };
    let value = match value {
        Some(value) => Some(OsStr::from_bytes(value).to_os_string()),
        None if option.has_value() => words.next(),
        None => Some(OsString::new()),
    };
    value.map(|value| (option, value)).ok_or_else(|| Failure::Usage(format!("{name} needs a value"), usage))
}

fn parse_stamp(text: &OsStr, call: &Call) -> Result<Stamp, Failure> {
    text.to_str().and_then(Stamp::parse).ok_or_else(|| {
        let form = "YYYY-MM-DDThh:mm:ss, or 0x and 16 hex digits";
        call.usage(format!("--stamp takes {form}, not {}", text.display()))
    })
}

/// The shift that one of two options says, each in its own way.
fn parse_minutes(call: &Call) -> Result<Option<i32>, Failure> {
    let (text, minutes, form) = match (call.value(Opt::Minutes), call.value(Opt::Zone)) {
        (None, None) => return Ok(None),
        (Some(_), Some(_)) => return Err(call.usage("--minutes and --zone say the same: give one of them".to_string())),
        (Some(text), None) => (text, shift::of_minutes(text), "--minutes takes a number, such as -540 or 60"),
        (None, Some(text)) => (text, shift::of_zone(text), "--zone takes +hh:mm or -hh:mm from UTC, such as +01:00"),
    };
    match minutes {
        Some(minutes) => Ok(Some(minutes)),
        None => Err(call.usage(format!("{form}, not {}", text.display()))),
    }
}
