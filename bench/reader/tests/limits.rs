//! The limits of document 02's request 7, each met and passed by one, in both formats.

use reader::build::deep::{self, long_name, long_path};
use reader::build::{directory, file, fresh, usual_time, Assembly, Layout};
use reader::card::{is_allowed, END_MARK, MOST_CLUSTERS};
use reader::paths::{MOST_BYTES, MOST_NAMES};
use reader::tree::DEEPEST;
use reader::{check, create, delete, find, list, make_dir, read, remove_dir, replace, step, Counts, Format, Refusal};

fn number<T: std::fmt::Debug>(answer: Result<T, Refusal>) -> u8 {
    answer.unwrap_err().number
}

#[test]
fn numbers() {
    assert_eq!((MOST_CLUSTERS, DEEPEST, MOST_NAMES, MOST_BYTES), (65_536, 7, 8, 256));
    let bytes = Format::BOTH.map(|format| MOST_CLUSTERS * format.cluster_bytes());
    assert_eq!(bytes, [69_206_016, 67_108_864]);
}

/// The two cards that the papers give, and the greatest ones.
#[test]
fn layouts() {
    let of = |layout: Layout| (layout.alloc_offset, layout.alloc_end, layout.table.len(), layout.backups);
    assert_eq!(of(Layout::fresh(56)), (10, 30, 1, [6, 5]));
    assert_eq!(of(Layout::fresh(8192)), (41, 8135, 32, [1023, 1022]));
    assert_eq!(of(Layout::fresh(65_536)), (264, 65_256, 255, [8191, 8190]));
    // No accepted card has more allocatable clusters than this, and so none has a table of 256.
    assert_eq!(of(Layout::widest(65_536)), (257, 65_263, 255, [8191, 8190]));
    for clusters in (32..=MOST_CLUSTERS).step_by(8) {
        for layout in [Layout::fresh(clusters), Layout::widest(clusters)] {
            let last = layout.table[layout.table.len() - 1];
            assert_eq!(layout.alloc_end.div_ceil(256), layout.table.len(), "{clusters}");
            assert_eq!(layout.alloc_offset + layout.alloc_end, clusters - 16, "{clusters}");
            assert!((last + 1..=last + 2).contains(&layout.alloc_offset), "{clusters}");
        }
    }
}

/// A cluster, a block or a byte more or less.
#[test]
fn lengths() {
    for (format, clusters) in Format::BOTH.into_iter().flat_map(|format| [32, 8192, 8200, 65_536].map(|n| (format, n)))
    {
        let bytes = format.cluster_bytes();
        let layout = Layout::fresh(clusters);
        let mut image = fresh(format, clusters);
        assert_eq!(image.len(), clusters * bytes);
        let counts = layout.counts(1);
        assert_eq!(check(format, &image), Ok(counts));
        image.resize((clusters + 9) * bytes, 0xFF);
        for near in [clusters - 8, clusters - 1, clusters, clusters + 1, clusters + 8] {
            for length in [near * bytes - 1, near * bytes, near * bytes + 1] {
                let expected = match length.is_multiple_of(bytes) && is_allowed(near) {
                    true if near == clusters => Ok(counts),
                    true => Err(Refusal::number(4)),
                    false => Err(Refusal::number(1)),
                };
                assert_eq!(check(format, &image[..length]), expected, "{format:?}, {length}");
            }
        }
    }
}

/// Every call at paths of eight and of nine names, and at paths of 256 bytes and of more.
#[test]
fn paths() {
    let time = usual_time();
    for format in Format::BOTH {
        for (image, path) in [
            (deep::sample(format).finish(), deep::PATH.to_vec()),
            (deep::named(format, long_name, &long_name(8)).finish(), long_path()),
        ] {
            assert_eq!(find(format, &image, &path).unwrap().length, 10);
            assert_eq!(number(step(format, &image, &path, 0)), 10);
            assert_eq!(read(format, &image, &path, 3, &mut [0; 20]), Ok(7));
            let mut copy = image.clone();
            assert_eq!(number(create(format, &mut copy, &path, &time, b"")), 11);
            assert_eq!(number(make_dir(format, &mut copy, &path, &time)), 8);
            assert_eq!(number(remove_dir(format, &mut copy, &path)), 10);
            assert_eq!(replace(format, &mut copy, &path, &time, &[1; 2000]), Ok(()));
            assert_eq!(delete(format, &mut copy, &path), Ok(()));
            assert_eq!(remove_dir(format, &mut copy, reader::paths::directory_of(&path)), Ok(()));
            for longer in [[&path[..], b"/x"].concat(), [&path[..], b"/"].concat(), path.repeat(9)] {
                malformed(format, &image, &longer);
            }
        }
        let image = deep::named(format, long_name, &long_name(8)).finish();
        malformed(format, &image, &[&long_path()[..], b"n"].concat());
    }
}

/// A malformed path is 8 for every call.
fn malformed(format: Format, image: &[u8], path: &[u8]) {
    let (mut copy, time) = (image.to_vec(), usual_time());
    assert_eq!(number(find(format, image, path)), 8);
    assert_eq!(number(step(format, image, path, 0)), 8);
    assert_eq!(number(read(format, image, path, 0, &mut [0; 4])), 8);
    assert_eq!(number(create(format, &mut copy, path, &time, b"")), 8);
    assert_eq!(number(replace(format, &mut copy, path, &time, b"")), 8);
    assert_eq!(number(make_dir(format, &mut copy, path, &time)), 8);
    assert_eq!(number(delete(format, &mut copy, path)), 8);
    assert_eq!(number(remove_dir(format, &mut copy, path)), 8);
    assert!(copy == image);
}

/// A root that takes up the whole card, with an empty file in every slot from 2 on.
fn crowd(format: Format, files: usize) -> Assembly {
    let mut card = Assembly::new(format, Layout::fresh(MOST_CLUSTERS));
    let length = 2 + files;
    let chain: Vec<usize> = (0..length.div_ceil(2)).collect();
    card.directory(&chain, length as u32);
    for slot in 2..length {
        card.put(chain[slot / 2], slot % 2, &file(format!("file{slot}").as_bytes(), 0, END_MARK));
    }
    card
}

/// The greatest directory, 130,510 files: a slot less, the last slot, and no more.
#[test]
fn greatest_directory() {
    let time = usual_time();
    for format in Format::BOTH {
        let mut image = crowd(format, 130_509).finish();
        let full = Counts { clusters: 65_536, free: 0, reached: 65_256, orphaned: 0, held: 0, mended: 0 };
        assert_eq!(check(format, &image), Ok(full));
        assert_eq!(create(format, &mut image, b"/last", &time, b""), Ok(()));
        assert_eq!(number(create(format, &mut image, b"/one more", &time, b"")), 12);
        assert_eq!(find(format, &image, b"/").unwrap().length, 130_512);
        assert_eq!(step(format, &image, b"/", 130_511).unwrap().unwrap().1.name(), Some(&b"last"[..]));
        assert_eq!(list(format, &image, 300).lines().count(), 6 + 130_510);
        assert_eq!(delete(format, &mut image, b"/file77777"), Ok(()));
        assert_eq!(create(format, &mut image, b"/one more", &time, b""), Ok(()));
        assert_eq!(step(format, &image, b"/", 77_777).unwrap().unwrap().1.name(), Some(&b"one more"[..]));
        assert_eq!(check(format, &image), Ok(full));
    }
}

/// A twin is found at the other end of 60,000 names, and a name that is nearly one is none.
#[test]
fn twins_far_apart() {
    for format in Format::BOTH {
        let mut card = crowd(format, 60_000);
        card.put(30_000, 1, &file(b"file2", 0, END_MARK));
        assert_eq!(check(format, &card.finish()), Err(Refusal::number(7)));
        let mut card = crowd(format, 60_000);
        card.put(30_000, 1, &directory(b"file2 ", 2, 40_000));
        card.directory(&[40_000], 2);
        assert!(check(format, &card.finish()).is_ok());
    }
}
