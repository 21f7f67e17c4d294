//! Numbers that name no format: every call answers 1, whatever else it is given, and leaves everything as it was.

mod common;

use common::changes::five;
use compare::format::Number;
use compare::{change, check, find, listing, read, step};
use reader::build::good::sample;
use reader::build::{bench, usual_time, Assembly, Layout};
use reader::{Format, Refusal};

/// The last ones are 0 and 1 in their low byte, or in their low half.
const NONE: [u32; 11] = [2, 3, 127, 255, u32::MAX, 1 << 31, (1 << 31) + 1, 256, 257, 1 << 16, (1 << 16) + 1];

/// Cards that are accepted in their format, and one length that is right in both.
fn cards() -> Vec<(Format, Vec<u8>)> {
    let both = [(Format::Raw, 256), (Format::Plain, 264)];
    let long = both.map(|(format, clusters)| {
        (format, Assembly::with_root(format, Layout { clusters, ..Layout::bench() }).finish())
    });
    let small = Format::BOTH.map(|format| (format, bench(format)));
    small.into_iter().chain(Format::BOTH.map(|format| (format, sample(format).finish()))).chain(long).collect()
}

const PATHS: [&[u8]; 5] = [b"/", b"/F", b"/D", b"/new", b"no path"];

#[test]
fn looking() {
    let one = Refusal::number(1);
    for (format, image) in cards() {
        assert!(check(format, &image).is_ok() && find(format, &image, b"/").is_ok());
        for number in NONE.map(Number) {
            assert_eq!(check(number, &image), Err(one), "{number:?}");
            assert_eq!(listing::whole(number, &image), "refused 1\n", "{number:?}");
            for path in PATHS {
                assert_eq!(find(number, &image, path), Err(one), "{number:?}");
                assert_eq!(step(number, &image, path, 0), Err(one), "{number:?}");
                let mut buffer = [0xA5; 100];
                assert_eq!(read(number, &image, path, 0, &mut buffer), Err(one), "{number:?}");
                assert_eq!(buffer, [0xA5; 100], "{number:?}");
            }
        }
    }
}

#[test]
fn changing() {
    let mut accepted = 0;
    for (format, before) in cards() {
        for (path, time) in PATHS.into_iter().flat_map(|path| [(path, usual_time()), (path, [0xFF; 8])]) {
            for change in five(path, &time, b"bytes") {
                for number in NONE.map(Number) {
                    let mut image = before.clone();
                    assert_eq!(change::apply(number, &change, &mut image), Err(Refusal::number(1)), "{number:?}");
                    assert!(image == before, "{number:?}");
                }
                accepted += usize::from(change::apply(format, &change, &mut before.clone()).is_ok());
            }
        }
    }
    assert!(accepted >= 12, "the format that the card has would have done: {accepted}");
}
