//! Refusals 8 to 15 in their order (16 is in `locks`), and what finding, stepping and reading answer, in both formats.

use reader::build::deep;
use reader::build::good::sample;
use reader::build::scribble::{break_page, flip};
use reader::build::usual_time;
use reader::{create, delete, find, make_dir, read, remove_dir, replace, step, Format, Refusal};

const BAD_TIME: [u8; 8] = [0, 0, 0, 0, 30, 2, 0xD0, 7];

/// The number of a refused call.
fn number<T: std::fmt::Debug>(answer: Result<T, Refusal>) -> u8 {
    let refusal = answer.unwrap_err();
    assert_eq!(refusal.page.is_some(), refusal.number == 2);
    refusal.number
}

const MALFORMED: [&[u8]; 12] =
    [b"", b"F", b"//", b"/F/", b"//F", b"/D//D2", b"/.", b"/D/..", b"/F*", b"/a/b/c/d/e/f/g/h/i", b"/F\0", b"/\x80"];

#[test]
fn malformed_paths_come_first() {
    for format in Format::BOTH {
        let image = sample(format).finish();
        for path in MALFORMED {
            let mut image = image.clone();
            assert_eq!(number(find(format, &image, path)), 8);
            assert_eq!(number(step(format, &image, path, 0)), 8);
            assert_eq!(number(read(format, &image, path, 0, &mut [0; 4])), 8);
            assert_eq!(number(create(format, &mut image, path, &BAD_TIME, b"")), 8);
            assert_eq!(number(replace(format, &mut image, path, &BAD_TIME, b"")), 8);
            assert_eq!(number(make_dir(format, &mut image, path, &BAD_TIME)), 8);
            assert_eq!(number(delete(format, &mut image, path)), 8);
            assert_eq!(number(remove_dir(format, &mut image, path)), 8);
        }
        assert_eq!(number(find(format, &image, &[&b"/"[..], &[b'a'; 32]].concat())), 8);
        assert_eq!(number(find(format, &image, &[&b"/"[..], &[b'a'; 31]].concat())), 9);
    }
}

#[test]
fn the_root() {
    for format in Format::BOTH {
        let mut image = sample(format).finish();
        assert_eq!(number(create(format, &mut image, b"/", &BAD_TIME, b"")), 8);
        assert_eq!(number(replace(format, &mut image, b"/", &BAD_TIME, b"")), 8);
        assert_eq!(number(make_dir(format, &mut image, b"/", &BAD_TIME)), 8);
        assert_eq!(number(delete(format, &mut image, b"/")), 8);
        assert_eq!(number(remove_dir(format, &mut image, b"/")), 8);
        let root = find(format, &image, b"/").unwrap();
        assert_eq!((root.mode, root.length, root.name()), (0x8427, 6, Some(&b"."[..])));
        assert_eq!(number(read(format, &image, b"/", 99, &mut [0; 4])), 10);
    }
}

#[test]
fn a_new_directory_at_eight_names() {
    for format in Format::BOTH {
        let mut image = deep::sample(format).finish();
        for path in [&b"/D1/D2/D3/D4/D5/D6/D7/x"[..], deep::PATH, b"/no/such/way/e/f/g/h/x", b"/F/b/c/d/e/f/g/h"] {
            assert_eq!(number(make_dir(format, &mut image, path, &BAD_TIME)), 8);
            assert_eq!(number(make_dir(format, &mut image, path, &usual_time())), 8);
        }
        // With a name less it is the time that is judged next, then the way.
        assert_eq!(number(make_dir(format, &mut image, b"/no/such/way/e/f/g/h", &BAD_TIME)), 14);
        assert_eq!(number(make_dir(format, &mut image, b"/no/such/way/e/f/g/h", &usual_time())), 9);
        assert_eq!(make_dir(format, &mut image, b"/D1/D2/D3/D4/D5/D6/x", &usual_time()), Ok(()));
        assert_eq!(create(format, &mut image, b"/D1/D2/D3/D4/D5/D6/x/y", &usual_time(), b"y"), Ok(()));
    }
}

#[test]
fn times_before_names() {
    for format in Format::BOTH {
        let mut image = sample(format).finish();
        for path in [&b"/no/x"[..], b"/F/x", b"/F", b"/D", b"/new"] {
            assert_eq!(number(create(format, &mut image, path, &BAD_TIME, &[0; 99_999])), 14);
            assert_eq!(number(replace(format, &mut image, path, &BAD_TIME, &[0; 99_999])), 14);
            assert_eq!(number(make_dir(format, &mut image, path, &BAD_TIME)), 14);
        }
    }
}

#[test]
fn names_from_the_left() {
    for format in Format::BOTH {
        let time = usual_time();
        let mut image = sample(format).finish();
        for (path, expected) in [
            (&b"/no"[..], 9),
            (b"/no/x", 9),
            (b"/D/no/x", 9),
            (b"/F/x", 10),
            (b"/F/x/y", 10),
            (b"/D/D2/D3/deep", 0),
            (b"/D/D2/F/x", 9),
            (b"/E/E", 10),
            (b"/d", 9),
            (b"/D ", 9),
            (b"/D/D2/D", 9),
        ] {
            assert_eq!(find(format, &image, path).map_or_else(|refusal| refusal.number, |_| 0), expected, "{path:?}");
        }
        assert_eq!(number(create(format, &mut image, b"/no/x", &time, b"")), 9);
        assert_eq!(number(create(format, &mut image, b"/F/x", &time, b"")), 10);
        assert_eq!(number(make_dir(format, &mut image, b"/F/x/y", &time)), 10);
        assert_eq!(number(replace(format, &mut image, b"/no", &time, b"")), 9);
        assert_eq!(number(delete(format, &mut image, b"/D/no/x",)), 9);
    }
}

#[test]
fn kinds() {
    for format in Format::BOTH {
        let time = usual_time();
        let mut image = sample(format).finish();
        assert_eq!(number(replace(format, &mut image, b"/D", &time, &[0; 99_999])), 10);
        assert_eq!(number(delete(format, &mut image, b"/D")), 10);
        assert_eq!(number(remove_dir(format, &mut image, b"/F")), 10);
        assert_eq!(number(step(format, &image, b"/F", 0)), 10);
        assert_eq!(number(read(format, &image, b"/D", 1 << 40, &mut [0; 4])), 10);
        for path in [&b"/D"[..], b"/F", b"/E", b"/D/D2"] {
            assert_eq!(number(create(format, &mut image, path, &time, &[0; 99_999])), 11);
            assert_eq!(number(make_dir(format, &mut image, path, &time)), 11);
        }
        assert_eq!(number(remove_dir(format, &mut image, b"/D")), 13);
        assert_eq!(number(remove_dir(format, &mut image, b"/D/D2/D3")), 13);
    }
}

#[test]
fn too_few_clusters() {
    for format in Format::BOTH {
        let time = usual_time();
        let mut image = sample(format).finish();
        let before = image.clone();
        // 17 are free; the dead slot 4 takes the first new entry, the next one needs growth.
        assert_eq!(number(create(format, &mut image, b"/new", &time, &[1; 17 * 1024 + 1])), 12);
        assert_eq!(number(replace(format, &mut image, b"/F", &time, &[1; 17 * 1024 + 1])), 12);
        assert_eq!(image, before);
        assert_eq!(create(format, &mut image, b"/new", &time, &[1; 17 * 1024]), Ok(()));
        assert_eq!(number(create(format, &mut image, b"/more", &time, b"")), 12);
        assert_eq!(number(make_dir(format, &mut image, b"/D/D2/x", &time)), 12);
        assert_eq!(create(format, &mut image, b"/D/D2/x", &time, b""), Ok(()));
        assert_eq!(number(replace(format, &mut image, b"/new", &time, b"x")), 12);
        assert_eq!(replace(format, &mut image, b"/new", &time, b""), Ok(()));
        assert_eq!(reader::check(format, &image).unwrap().free, 17);
    }
}

#[test]
fn steps() {
    for format in Format::BOTH {
        let image = sample(format).finish();
        let slots = |path: &[u8]| -> Vec<usize> {
            let mut slots = Vec::new();
            let mut from = 0;
            while let Some((slot, _)) = step(format, &image, path, from).unwrap() {
                slots.push(slot);
                from = slot + 1;
            }
            slots
        };
        assert_eq!(slots(b"/"), [2, 3, 5]);
        assert_eq!(slots(b"/D/D2/D3"), [2]);
        assert_eq!(step(format, &image, b"/", 4).unwrap().unwrap().0, 5);
        assert_eq!(step(format, &image, b"/", 4).unwrap().unwrap().1.name(), Some(&b"E"[..]));
        assert_eq!(step(format, &image, b"/", 6), Ok(None));
        assert_eq!(step(format, &image, b"/", usize::MAX), Ok(None));
    }
}

#[test]
fn reading() {
    for format in Format::BOTH {
        let mut image = sample(format).finish();
        let data: Vec<u8> = (0..5000_usize).map(|at| (at * 7 % 251) as u8).collect();
        create(format, &mut image, b"/D/big", &usual_time(), &data).unwrap();
        for (offset, size) in
            [(0, 5000), (0, 9000), (511, 2), (512, 512), (1023, 1026), (4999, 1), (4990, 100), (77, 0)]
        {
            let mut buffer = vec![0xEE; size];
            let count = size.min(5000 - offset);
            assert_eq!(read(format, &image, b"/D/big", offset, &mut buffer), Ok(count));
            assert_eq!(buffer[..count], data[offset..offset + count]);
            assert!(buffer[count..].iter().all(|&byte| byte == 0xEE));
        }
    }
}

/// Only pages with a byte to copy are needed; the first unreadable one comes last of all refusals.
#[test]
fn reading_past_damage() {
    let format = Format::Raw;
    let mut image = sample(format).finish();
    // F is 1,500 bytes in clusters 5 and 4: card pages 30, 31, 28.
    break_page(format, &mut image, 31);
    break_page(format, &mut image, 28);
    break_page(format, &mut image, 29);
    flip(format, &mut image, 30, 1, 700);
    let mut buffer = [5; 600];
    assert_eq!(read(format, &image, b"/F", 0, &mut buffer[..512]), Ok(512));
    buffer = [5; 600];
    assert_eq!(read(format, &image, b"/F", 0, &mut buffer[..513]), Err(Refusal::unreadable(31)));
    assert_eq!(read(format, &image, b"/F", 1024, &mut buffer), Err(Refusal::unreadable(28)));
    assert_eq!(read(format, &image, b"/F", 500, &mut buffer), Err(Refusal::unreadable(31)));
    assert_eq!(number(read(format, &image, b"/F", 1501, &mut buffer)), 15);
    assert_eq!(read(format, &image, b"/F", 1500, &mut buffer), Ok(0));
    assert_eq!(read(format, &image, b"/F", 1000, &mut []), Ok(0));
    assert_eq!(number(read(format, &image, b"/F", 1501, &mut [])), 15);
    assert_eq!(read(format, &image, b"/E", 0, &mut buffer), Ok(0));
    assert_eq!(buffer, [5; 600]);
}

/// On a plain card the same flips are other bytes of the file, and no page is unreadable.
#[test]
fn reading_flipped_bytes() {
    let format = Format::Plain;
    let mut image = sample(format).finish();
    let data: Vec<u8> = (0..1500_usize).map(|at| (at * 7 % 251) as u8).collect();
    replace(format, &mut image, b"/F", &usual_time(), &data).unwrap();
    // Clusters 13 and 14: card pages 46, 47, 48.
    break_page(format, &mut image, 46);
    flip(format, &mut image, 48, 3, 1023);
    let mut expected = data;
    expected[1] ^= 1;
    expected[2] ^= 1 << 5;
    let mut buffer = [5; 1600];
    assert_eq!(read(format, &image, b"/F", 0, &mut buffer), Ok(1500));
    assert_eq!(buffer[..1500], expected);
    assert_eq!(buffer[1500..], [5; 100]);
}
