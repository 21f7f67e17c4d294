//! Fresh cards, against the independent builder.

mod common;

use std::fs;

use common::{in_wrapper, Folder, USUAL};
use reader::build::{self, Assembly, Layout};
use reader::{page, Format, Refusal};

#[test]
fn standard_card() {
    for format in Format::BOTH {
        let folder = Folder::of(format);
        folder.run(&["new", "card", "--stamp", USUAL]).done();
        assert!(folder.read("card") == build::standard(format));
        let counts = "card 8192\nfree 7999\nreached 1\norphaned 0\nheld 135\nmended 0\n";
        assert_eq!(folder.run(&["check", "card"]).text(), format!("card: OK, 7999 KB free\n{counts}"));
        assert_eq!(folder.run(&["list", "card"]).text(), counts);
        assert_eq!(folder.names(), ["card"]);
    }
}

#[test]
fn bench_card() {
    for format in Format::BOTH {
        let folder = Folder::of(format);
        folder.run(&["new", "card", "56", "--stamp", USUAL]).done();
        assert_eq!(folder.read("card"), build::bench(format));
    }
}

/// Every size up to the standard card's.
#[test]
fn every_size() {
    for clusters in (32..=8_192).step_by(8) {
        for format in Format::BOTH {
            judge(format, clusters);
        }
    }
}

/// Beyond it: the first size, those around the one whose table names go on in the indirect cluster's second page, and
/// the last.
#[test]
fn large_sizes() {
    for (clusters, table) in [(8_200, 32), (32_920, 128), (32_928, 129), (65_528, 255), (65_536, 255)] {
        for format in Format::BOTH {
            let image = judge(format, clusters);
            let first = page::read(format, &image, 0).expect("readable");
            assert_eq!([0x34, 0x38].map(|at| page::word(&first, at) as usize), [9 + table, clusters - 25 - table]);
            let names = [16, 17].map(|page| page::read(format, &image, page).expect("readable")).concat();
            let names: Vec<usize> = names.chunks(4).map(|word| page::word(word, 0) as usize).collect();
            let unused = |name: &usize| *name == 0xFFFF_FFFF;
            assert!((9..9 + table).eq(names[..table].iter().copied()) && names[table..].iter().all(unused));
        }
    }
}

/// Accepted, no bad block listed, both backup blocks erased, every cluster before them in use; of some sizes the
/// independent builder's bytes.
fn judge(format: Format, clusters: usize) -> Vec<u8> {
    let time = ps2card::Stamp(build::usual_time());
    let card = ps2card::Card::fresh(in_wrapper(format), clusters, &time).expect("an allowed size");
    assert_eq!(card.format(), in_wrapper(format));
    let image = card.into_image();
    let counts = reader::check(format, &image).expect("accepted");
    assert_eq!((counts.clusters, counts.reached, counts.orphaned), (clusters, 1, 0));
    let first = page::read(format, &image, 0).expect("readable");
    assert!(first[0xD0..0x150].iter().all(|&byte| byte == 0xFF));
    let backups = [0x40, 0x44].map(|at| page::word(&first, at));
    for block in backups {
        let bytes = 8 * format.cluster_bytes();
        assert!(image[bytes * block as usize..][..bytes].iter().all(|&byte| byte == 0xFF));
    }
    let [alloc_offset, alloc_end] = [0x34, 0x38].map(|at| page::word(&first, at) as usize);
    assert_eq!(alloc_offset + alloc_end, clusters - 16);
    let held = if clusters == 8_192 { alloc_end - 8_000 } else { 0 };
    assert_eq!((counts.free, counts.held), (alloc_end - 1 - held, held));
    if clusters.is_multiple_of(256) || !(128..=8_192).contains(&clusters) {
        let table = (9..alloc_offset).collect::<Vec<usize>>();
        assert_eq!(table.len(), alloc_end.div_ceil(256));
        let layout = Layout { clusters, alloc_offset, alloc_end, indirect: 8, table, backups, version: "1.2.0.0" };
        assert!(Assembly::with_root(format, layout).finish() == image, "{format:?} {clusters}");
    }
    image
}

/// Larger than standard, by the command: the counts by the rule for fresh cards.
#[test]
fn large_cards() {
    for format in Format::BOTH {
        let folder = Folder::of(format);
        for (clusters, free) in [(8_200, 8_142), (65_528, 65_247), (65_536, 65_255)] {
            folder.run(&["new", "card", &clusters.to_string()]).done();
            let counts = format!("card {clusters}\nfree {free}\nreached 1\norphaned 0\nheld 0\nmended 0\n");
            assert_eq!(folder.run(&["check", "card"]).text(), format!("card: OK, {free} KB free\n{counts}"));
            assert_eq!(
                fs::metadata(folder.path("card")).expect("a file").len(),
                clusters * format.cluster_bytes() as u64
            );
            fs::remove_file(folder.path("card")).expect("removed");
        }
    }
}

/// The smallest card takes what its counts say.
#[test]
fn smallest_card() {
    let folder = Folder::new();
    folder.run(&["new", "card", "32"]).done();
    let counts = "card: OK, 5 KB free\ncard 32\nfree 5\nreached 1\norphaned 0\nheld 0\nmended 0\n";
    assert_eq!(folder.run(&["check", "card"]).text(), counts);
    folder.write("fits", &[3; 4 * 1024]);
    folder.run(&["create", "card", "/A", "fits"]).done();
    folder.run(&["create", "card", "/B", "fits"]).refused(Refusal::number(12));
    assert_eq!(folder.run(&["read", "card", "/A"]).done(), vec![3; 4 * 1024]);
}

#[test]
fn refused_or_wrong() {
    let folder = Folder::new();
    for size in ["-8", "x", "+56", "99999999999999999999"] {
        folder.run(&["new", "card", "--", size]).failed(2, &format!("N is no number that fits: {size}\n"));
    }
    for size in ["0", "24", "31", "33", "8196", "8201", "65535", "65537", "65544", "131072"] {
        let words = format!("N is a multiple of 8 from 32 to 65536, not {size}\n");
        Format::BOTH.into_iter().for_each(|format| Folder::of(format).run(&["new", "card", size]).failed(2, &words));
    }
    folder.run(&["new", "card", "--stamp", "1979-01-01T00:00:00"]).refused(Refusal::number(14));
    folder.run(&["new", "none/card"]).failed(3, "cannot make none/card");
    folder.run(&["new", "/"]).failed(3, "cannot make /");
    assert_eq!(folder.names(), Vec::<String>::new());
    folder.write("card", b"mine");
    folder.run(&["new", "card"]).failed(3, "cannot make card: File exists");
    assert_eq!((folder.read("card"), folder.names()), (b"mine".to_vec(), vec!["card".to_string()]));
}
