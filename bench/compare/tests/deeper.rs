//! Directories 7 and 8 below the root, paths of eight and nine names, of 256 bytes and more, through every call.

mod common;

use common::changes::{Changes, BAD_TIME, KINDS};
use common::lookups::Lookups;
use common::orders::Run;
use compare::listing;
use reader::build::deep::{self, long_name, long_path};
use reader::build::vandal::too_deep;
use reader::build::{bench, fresh, usual_time};
use reader::content::visit;
use reader::paths::{directory_of, join, MOST_BYTES};
use reader::rng::Rng;
use reader::time::Time;
use reader::tree::{Checked, DEEPEST};
use reader::{Change, Counts, Format, Refusal};

fn here() -> String {
    "deep card".into()
}

/// The numbers of all five changes at a path.
fn numbers(format: Format, image: &[u8], path: &[u8], time: &Time, clusters: usize) -> [u8; 5] {
    Changes::new(format).numbers(image, path, time, clusters, here)
}

/// The listing, which both sides agree on.
fn listed(format: Format, image: &[u8]) -> String {
    let text = listing::whole(format, image);
    assert!(text == reader::list(format, image, 0), "the {format:?} listings differ");
    text
}

/// 11 clusters are free on the deep sample, and each directory has a slot left.
#[test]
fn changes_in_order() {
    for format in Format::BOTH {
        let image = deep::sample(format).finish();
        let (good, bad) = (&usual_time(), &BAD_TIME);
        let cases: [(&[u8], &Time, usize, [u8; 5]); 17] = [
            // eight names
            (deep::PATH, good, 11, [11, 0, 0, 8, 10]),
            (deep::PATH, good, 12, [11, 12, 0, 8, 10]),
            (deep::PATH, bad, 12, [14, 14, 0, 8, 10]),
            (b"/D1/D2/D3/D4/D5/D6/D7/new", good, 11, [0, 9, 9, 8, 9]),
            (b"/D1/D2/D3/D4/D5/D6/D7/new", good, 12, [12, 9, 9, 8, 9]),
            (b"/D1/D2/D3/D4/D5/D6/D7/new", bad, 12, [14, 14, 9, 8, 9]),
            (b"/no/such/way/4/5/6/7/8", good, 1, [9, 9, 9, 8, 9]),
            (b"/no/such/way/4/5/6/7/8", bad, 1, [14, 14, 9, 8, 9]),
            (b"/F/2/3/4/5/6/7/8", good, 1, [10, 10, 10, 8, 10]),
            // seven names
            (b"/D1/D2/D3/D4/D5/D6/D7", good, 1, [11, 10, 10, 11, 13]),
            (b"/D1/D2/D3/D4/D5/D6/D7", bad, 1, [14, 14, 10, 14, 13]),
            (b"/D1/D2/D3/D4/D5/D6/new", good, 11, [0, 9, 9, 0, 9]),
            (b"/D1/D2/D3/D4/D5/D6/new", bad, 11, [14, 14, 9, 14, 9]),
            (b"/D1/D2/D3/D4/D5/no/7", good, 1, [9, 9, 9, 9, 9]),
            // nine names
            (b"/D1/D2/D3/D4/D5/D6/D7/deep/9", good, 1, [8; 5]),
            (b"/D1/D2/D3/D4/D5/D6/D7/new/9", bad, 12, [8; 5]),
            (b"/1/2/3/4/5/6/7/8/9", bad, 12, [8; 5]),
        ];
        for (path, time, clusters, expected) in cases {
            let found = numbers(format, &image, path, time, clusters);
            assert_eq!(found, expected, "{KINDS:?} {}, {clusters} clusters", path.escape_ascii());
        }
    }
}

#[test]
fn lookups() {
    for format in Format::BOTH {
        let image = deep::sample(format).finish();
        let mut lookups = Lookups::new(format);
        for (number, path) in [
            (8, &b"/1/2/3/4/5/6/7/8/9"[..]),
            (8, b"/D1/D2/D3/D4/D5/D6/D7/deep/9"),
            (8, b"/D1/D2/D3/D4/D5/D6/D7/"),
            (8, b"/D1/D2/D3/D4/D5/D6/D7/deep/"),
            (9, b"/D1/D2/D3/D4/D5/D6/D7/dee"),
            (9, b"/D1/D2/D3/D4/D5/D6/D8/deep"),
            (9, b"/D1/no/3/4/5/6/7/8"),
            (10, b"/F/2/3/4/5/6/7/8"),
        ] {
            lookups.refused(&image, path, Refusal::number(number), here);
        }
        // Each name more leads one further down; at the end stands a file.
        let names: Vec<usize> = (1..deep::PATH.len()).filter(|&at| deep::PATH[at] == b'/').collect();
        assert_eq!(names.len(), DEEPEST);
        for &end in &names {
            let path = &deep::PATH[..end];
            assert_eq!(lookups.find(&image, path, here).map(|entry| (entry.mode, entry.length)), Ok((0x8427, 3)));
            let next = lookups.step(&image, path, 0, here).expect("a directory").expect("one entry");
            assert_eq!((next.0, next.1.is_directory()), (2, end < names[6]));
            assert_eq!(lookups.step(&image, path, 3, here), Ok(None));
            assert_eq!(lookups.read(&image, path, 0, 9, here).0, Err(Refusal::number(10)));
        }
        assert_eq!(lookups.read(&image, deep::PATH, 3, 20, here).0, Ok(7));
        assert_eq!(lookups.read(&image, deep::PATH, 11, 20, here).0, Err(Refusal::number(15)));
        assert_eq!(lookups.step(&image, deep::PATH, 0, here), Err(Refusal::number(10)));
    }
}

/// The bytes of a path are bounded by its names alone: 256 are read, whatever is longer is malformed.
#[test]
fn long_paths() {
    for format in Format::BOTH {
        let image = deep::named(format, long_name, &long_name(8)).finish();
        let path = long_path();
        assert_eq!(path.len(), MOST_BYTES);
        assert_eq!(numbers(format, &image, &path, &usual_time(), 1), [11, 0, 0, 8, 10]);
        let mut lookups = Lookups::new(format);
        assert_eq!(lookups.find(&image, &path, here).map(|entry| entry.length), Ok(10));
        assert_eq!(lookups.read(&image, &path, 0, 20, here).0, Ok(10));
        let twin = [&path[..255], b"~"].concat();
        assert_eq!(numbers(format, &image, &twin, &usual_time(), 1), [0, 9, 9, 8, 9]);
        // A byte less, the beginning of the eighth name, and its slash alone.
        for (end, number) in [(255, 9), (226, 9), (225, 8)] {
            lookups.refused(&image, &path[..end], Refusal::number(number), here);
        }

        let more = |bytes: &[u8]| [&path[..], bytes].concat();
        let longer = [more(b"n"), more(b"/"), more(b"/n"), more(&path[..32]), path.repeat(2), path.repeat(300)];
        let one_name = [&b"/"[..], &[b'n'; 255]].concat();
        let slashes = vec![b'/'; 256];
        for path in longer.into_iter().chain([one_name, slashes, vec![b'n'; 100_000]]) {
            lookups.refused(&image, &path, Refusal::number(8), here);
            assert_eq!(numbers(format, &image, &path, &BAD_TIME, 12), [8; 5], "{} bytes", path.len());
        }
        let text = listed(format, &image);
        assert_eq!(text.lines().last(), Some("f 1500 /F 2000-02-29 12:34:56"));
        assert!(text.contains(&format!("f 10 {} 2000-02-29 12:34:56\n", String::from_utf8(path).expect("ASCII"))));
    }
}

/// From the bench card down to a file at eight names, a directory and a file at a time, and up again.
#[test]
fn down_and_up() {
    for format in Format::BOTH {
        let mut image = bench(format);
        let mut changes = Changes::new(format);
        let mut done = |image: &mut [u8], change: Change| changes.apply(image, &change, here).map_err(|it| it.number);
        let time = usual_time();
        let (mut around, mut made) = (b"/".to_vec(), Vec::new());
        for depth in 1..=DEEPEST + 1 {
            let file = join(&around, b"f");
            assert_eq!(done(&mut image, Change::Create { path: file.clone(), time, data: vec![7; depth] }), Ok(()));
            made.push(Change::Delete { path: file });
            around = join(&around, &long_name(depth));
            let expected = if depth <= DEEPEST { Ok(()) } else { Err(8) };
            assert_eq!(done(&mut image, Change::MakeDir { path: around.clone(), time }), expected);
            if expected.is_ok() {
                made.push(Change::RemoveDir { path: around.clone() });
            }
            assert_eq!(listed(format, &image).lines().count(), 6 + made.len());
        }
        for (left, change) in made.iter().enumerate().rev() {
            let mut copy = image.clone();
            let above = Change::RemoveDir { path: directory_of(change.path()).to_vec() };
            assert_eq!(done(&mut copy, above), if left < 2 { Err(8) } else { Err(13) });
            assert_eq!(done(&mut image, change.clone()), Ok(()));
            assert_eq!(listed(format, &image).lines().count(), 6 + left);
        }
        // The root keeps its four slots.
        assert_eq!(
            compare::check(format, &image),
            Ok(Counts { clusters: 56, free: 28, reached: 2, orphaned: 0, held: 0, mended: 0 })
        );
    }
}

/// Sound random cards but for one directory 8 below the root: every call refuses with 7.
#[test]
fn directories_too_deep() {
    for format in Format::BOTH {
        let cards: Vec<Vec<u8>> = (0..400).filter_map(|seed| too_deep(format, seed)).collect();
        assert!(cards.len() >= 20, "{}", cards.len());
        let seven = Refusal::number(7);
        let mut lookups = Lookups::new(format);
        for image in &cards {
            assert_eq!(common::same(format, image, "a directory 8 below"), Err(seven));
            assert_eq!(listed(format, image), "refused 7\n");
        }
        for image in &cards[..10] {
            lookups.refused(image, b"/", seven, here);
            assert_eq!(numbers(format, image, b"/new", &usual_time(), 1), [7; 5]);
        }
    }
}

/// Two directories in each down to 7 below the root, every second name long; files in some of them.
fn wide_and_deep(format: Format) -> Vec<u8> {
    let (mut image, time) = (fresh(format, 1024), usual_time());
    let mut level = vec![b"/".to_vec()];
    for depth in 1..=DEEPEST {
        let below = level.iter().flat_map(|path| [join(path, b"d"), join(path, &long_name(depth))]);
        level = below.collect();
        level.iter().for_each(|path| reader::make_dir(format, &mut image, path, &time).expect("room"));
    }
    for (number, path) in level.iter().enumerate().filter(|(number, _)| number % 3 == 0) {
        let data = vec![number as u8; 300 * (number % 7)];
        reader::create(format, &mut image, &join(path, b"file"), &time, &data).expect("room");
    }
    image
}

#[test]
fn listing_of_a_wide_and_deep_tree() {
    for format in Format::BOTH {
        let image = wide_and_deep(format);
        let whole = listed(format, &image).into_bytes();
        assert_eq!(whole.iter().filter(|&&byte| byte == b'\n').count(), 6 + 254 + 43);
        let mut rng = Rng::new(254);
        for _ in 0..20 {
            let room = rng.below(whole.len() + 300);
            let (text, length) = listing::list(format, &image, 0, room);
            assert_eq!((&text[..], length), (&whole[..room.min(whole.len())], whole.len()));
        }
        let mut lookups = Lookups::new(format);
        let mut number = 0;
        visit(&Checked::of(format, &image).expect("an accepted card").root, b"/", &mut |path, node| {
            number += 1;
            if number % 5 == 0 {
                assert_eq!(lookups.find(&image, path, here).as_ref(), Ok(&node.entry));
                lookups.step(&image, path, 3, here).ok();
            }
        });
    }
}

/// Demand 3 at paths of five names and more, on a card with much room and on one with hardly any.
fn pairs(format: Format) {
    let mut run = Run::new(format);
    let mut image = wide_and_deep(format);
    let mut rng = Rng::new(777);
    run.random_pairs(&image, 250, &mut rng, || "wide and deep, with room".into());
    for spare in [0, 1, 2] {
        let free = compare::check(format, &image).expect("an accepted card").free;
        let data = vec![0xA5; (free - 1 - spare) * 1024];
        reader::create(format, &mut image, b"/d/d/d/d/filler", &usual_time(), &data).expect("room");
        run.random_pairs(&image, 100, &mut rng, || format!("wide and deep, {spare} clusters spare"));
        reader::delete(format, &mut image, b"/d/d/d/d/filler").expect("it is there");
    }
    println!("{format:?}: {} pairs at five names or more", run.deep);
    assert!(run.deep >= 60 && run.neither >= 60 && run.one_order >= 5, "{} {}", run.deep, run.neither);
}

#[test]
fn raw_pairs() {
    pairs(Format::Raw);
}

#[test]
fn plain_pairs() {
    pairs(Format::Plain);
}
