//! Final images byte by byte in both formats: the pages a change must write, drawn up by hand.

use reader::build::good::sample;
use reader::build::scribble::{break_page, flip, junk_spare};
use reader::build::{bench, directory, file, usual_time};
use reader::page::{self, put_word, Data, DATA};
use reader::rng::Rng;
use reader::time::stamp;
use reader::{check, create, delete, make_dir, remove_dir, replace, Entry, Format};

/// The image with these pages written and nothing else touched.
fn written(format: Format, image: &[u8], pages: &[(usize, Data)]) -> Vec<u8> {
    let mut image = image.to_vec();
    pages.iter().for_each(|(page, data)| page::write(format, &mut image, *page, data));
    image
}

/// A page as read with some words set; bench table page 18 holds words 0 to 127.
fn words(format: Format, image: &[u8], page: usize, words: &[(usize, u32)]) -> (usize, Data) {
    let mut data = page::read(format, image, page).unwrap();
    words.iter().for_each(|&(place, word)| put_word(&mut data, 4 * place, word));
    (page, data)
}

fn part(bytes: &[u8]) -> Data {
    let mut data = [0; DATA];
    data[..bytes.len()].copy_from_slice(bytes);
    data
}

const ZERO: Data = [0; DATA];

/// Junk everywhere reading must not care, so that what is kept can be seen; a plain image has no such place.
fn worn(format: Format, mut image: Vec<u8>) -> Vec<u8> {
    let mut rng = Rng::new(3);
    if format == Format::Raw {
        for page in 0..image.len() / format.page_bytes() {
            junk_spare(&mut image, page, &mut rng);
            flip(format, &mut image, page, page % 4, 37 * page % 1044);
        }
    }
    check(format, &image).unwrap();
    image
}

/// Root pages of the fresh bench card are 20 and 21; cluster c has pages 20 + 2c and 21 + 2c.
#[test]
fn create_with_growth() {
    for format in Format::BOTH {
        let data: Vec<u8> = (0..1500_usize).map(|at| at as u8).collect();
        let before = worn(format, bench(format));
        let mut image = before.clone();
        create(format, &mut image, b"/A", &usual_time(), &data).unwrap();
        let expected = written(
            format,
            &before,
            &[
                words(format, &before, 18, &[(0, 0x8000_0001), (1, 0xFFFF_FFFF), (2, 0x8000_0003), (3, 0xFFFF_FFFF)]),
                words(format, &before, 20, &[(1, 3)]),
                (22, file(b"A", 1500, 2).page()),
                (23, ZERO),
                (24, part(&data[..512])),
                (25, part(&data[512..1024])),
                (26, part(&data[1024..])),
                (27, ZERO),
            ],
        );
        assert!(image == expected);
    }
}

#[test]
fn create_empty_at_odd_length() {
    for format in Format::BOTH {
        let mut before = worn(format, bench(format));
        create(format, &mut before, b"/A", &usual_time(), b"").unwrap();
        let mut before = worn(format, before);
        // The page that becomes the new entry need not be readable.
        break_page(format, &mut before, 23);
        let mut image = before.clone();
        let time = stamp(2024, 2, 29, 1, 2, 3);
        create(format, &mut image, b"/B", &time, b"").unwrap();
        let entry = Entry { created: time, modified: time, ..file(b"B", 0, 0xFFFF_FFFF) };
        let expected = written(format, &before, &[words(format, &before, 20, &[(1, 4)]), (23, entry.page())]);
        assert!(image == expected);
    }
}

#[test]
fn create_in_a_dead_slot() {
    for format in Format::BOTH {
        let before = worn(format, sample(format).finish());
        let mut image = before.clone();
        create(format, &mut image, b"/new", &usual_time(), &[9; 1024]).unwrap();
        let expected = written(
            format,
            &before,
            &[
                words(format, &before, 18, &[(13, 0xFFFF_FFFF)]),
                (24, file(b"new", 1024, 13).page()),
                (46, [9; DATA]),
                (47, [9; DATA]),
            ],
        );
        assert!(image == expected);
    }
}

/// A new directory below the root with growth: growth first, then its own cluster.
#[test]
fn make_directories() {
    for format in Format::BOTH {
        let time = usual_time();
        let before = worn(format, bench(format));
        let mut image = before.clone();
        make_dir(format, &mut image, b"/SAVE", &time).unwrap();
        let dot = |cluster, slot| Entry { dir_entry: slot, ..directory(b".", 0, cluster) }.page();
        let dots = directory(b"..", 0, 0).page();
        let first = written(
            format,
            &before,
            &[
                words(format, &before, 18, &[(0, 0x8000_0001), (1, 0xFFFF_FFFF), (2, 0xFFFF_FFFF)]),
                words(format, &before, 20, &[(1, 3)]),
                (22, directory(b"SAVE", 2, 2).page()),
                (23, ZERO),
                (24, dot(0, 2)),
                (25, dots),
            ],
        );
        assert!(image == first);

        make_dir(format, &mut image, b"/SAVE/x", &time).unwrap();
        let second = written(
            format,
            &first,
            &[
                words(format, &first, 18, &[(2, 0x8000_0003), (3, 0xFFFF_FFFF), (4, 0xFFFF_FFFF)]),
                words(format, &first, 22, &[(1, 3)]),
                (26, directory(b"x", 2, 4).page()),
                (27, ZERO),
                (28, dot(2, 2)),
                (29, dots),
            ],
        );
        assert!(image == second);

        make_dir(format, &mut image, b"/SAVE/y", &time).unwrap();
        let third = written(
            format,
            &second,
            &[
                words(format, &second, 18, &[(5, 0xFFFF_FFFF)]),
                words(format, &second, 22, &[(1, 4)]),
                (27, directory(b"y", 2, 5).page()),
                (30, dot(2, 3)),
                (31, dots),
            ],
        );
        assert!(image == third);
    }
}

#[test]
fn replace_takes_new_clusters() {
    for format in Format::BOTH {
        let mut card = sample(format);
        let mut odd = file(b"F", 1500, 5);
        odd.mode = 0xD497;
        odd.attribute = 0x1234_5678;
        odd.dir_entry = 77;
        card.put(1, 1, &odd);
        let before = worn(format, card.finish());
        let mut image = before.clone();
        let time = stamp(2001, 1, 1, 0, 0, 0);
        replace(format, &mut image, b"/F", &time, &[3; 600]).unwrap();
        let entry = Entry { length: 600, first_cluster: 13, modified: time, ..odd };
        let expected = written(
            format,
            &before,
            &[
                words(format, &before, 18, &[(13, 0xFFFF_FFFF), (5, 0x0000_0004), (4, 0x7FFF_FFFF)]),
                (23, entry.page()),
                (46, [3; DATA]),
                (47, part(&[3; 88])),
            ],
        );
        assert!(image == expected);
    }
}

#[test]
fn replace_by_nothing() {
    for format in Format::BOTH {
        let before = worn(format, sample(format).finish());
        let mut image = before.clone();
        replace(format, &mut image, b"/E", &usual_time(), b"").unwrap();
        assert!(image == before, "an empty file, its own time: no page changes");

        let time = stamp(2001, 1, 1, 0, 0, 0);
        replace(format, &mut image, b"/F", &time, b"").unwrap();
        let entry = Entry { length: 0, first_cluster: 0xFFFF_FFFF, modified: time, ..file(b"F", 0, 0) };
        let expected =
            written(format, &before, &[words(format, &before, 18, &[(5, 4), (4, 0x7FFF_FFFF)]), (23, entry.page())]);
        assert!(image == expected);
    }
}

#[test]
fn replace_by_equal_bytes() {
    for format in Format::BOTH {
        let mut before = sample(format).finish();
        create(format, &mut before, b"/D/same", &usual_time(), b"same").unwrap();
        let before = worn(format, before);
        let mut image = before.clone();
        replace(format, &mut image, b"/D/same", &usual_time(), b"same").unwrap();
        // D's slot 3 is the second page of cluster 6; the old cluster 13 gives way to 14.
        let expected = written(
            format,
            &before,
            &[
                words(format, &before, 18, &[(13, 0x7FFF_FFFF), (14, 0xFFFF_FFFF)]),
                words(format, &before, 33, &[(4, 14)]),
                (48, part(b"same")),
                (49, ZERO),
            ],
        );
        assert!(image == expected);
    }
}

#[test]
fn removals() {
    for format in Format::BOTH {
        let before = worn(format, sample(format).finish());
        let mut image = before.clone();
        delete(format, &mut image, b"/F").unwrap();
        let entry = Entry { mode: 0x0417, ..file(b"F", 1500, 5) };
        let expected =
            written(format, &before, &[words(format, &before, 18, &[(5, 4), (4, 0x7FFF_FFFF)]), (23, entry.page())]);
        assert!(image == expected);

        delete(format, &mut image, b"/D/D2/D3/deep").unwrap();
        let before = image.clone();
        remove_dir(format, &mut image, b"/D/D2/D3").unwrap();
        // D3 keeps its length 3 and frees both clusters of its chain.
        let entry = Entry { mode: 0x0427, ..directory(b"D3", 3, 9) };
        let expected =
            written(format, &before, &[words(format, &before, 18, &[(9, 10), (10, 0x7FFF_FFFF)]), (36, entry.page())]);
        assert!(image == expected);

        let before = image.clone();
        delete(format, &mut image, b"/E").unwrap();
        let entry = Entry { mode: 0x0417, ..file(b"E", 0, 0xFFFF_FFFF) };
        assert!(image == written(format, &before, &[(25, entry.page())]), "an empty file has no chain to free");
    }
}

/// Freed clusters are free for the next call, lowest first, whatever lies in them.
#[test]
fn freed_clusters_come_first() {
    for format in Format::BOTH {
        let mut image = sample(format).finish();
        delete(format, &mut image, b"/F").unwrap();
        break_page(format, &mut image, 28);
        break_page(format, &mut image, 31);
        create(format, &mut image, b"/G", &usual_time(), &[4; 3000]).unwrap();
        assert_eq!(reader::find(format, &image, b"/G").unwrap().first_cluster, 4);
        assert_eq!(reader::step(format, &image, b"/", 3).unwrap().unwrap().0, 3);
        let mut buffer = vec![0; 4000];
        assert_eq!(reader::read(format, &image, b"/G", 0, &mut buffer), Ok(3000));
        assert!(buffer[..3000].iter().all(|&byte| byte == 4));
    }
}

/// The root's own first cluster word may be junk; a new `.` still names cluster 0.
#[test]
fn parent_cluster_of_a_root_with_junk() {
    for format in Format::BOTH {
        let mut card = sample(format);
        card.put(0, 0, &Entry { dir_entry: 5, ..directory(b".", 6, 77) });
        let before = card.finish();
        let mut image = before.clone();
        make_dir(format, &mut image, b"/N", &usual_time()).unwrap();
        let dot = Entry { dir_entry: 4, ..directory(b".", 0, 0) };
        let expected = written(
            format,
            &before,
            &[
                words(format, &before, 18, &[(13, 0xFFFF_FFFF)]),
                (24, directory(b"N", 2, 13).page()),
                (46, dot.page()),
                (47, directory(b"..", 0, 0).page()),
            ],
        );
        assert!(image == expected);
    }
}
