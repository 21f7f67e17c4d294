//! Images written by PCSX2 1.6.0, and what it reads from them, line by line.

use std::process::Command;

use reader::content::lines;
use reader::{check, tree_text, Counts, Format};

/// What PCSX2 writes.
const RAW: Format = Format::Raw;

fn data(name: &str) -> String {
    format!("{}/testdata/{name}", env!("CARGO_MANIFEST_DIR"))
}

/// The image and its plain twin hold what PCSX2 read.
fn compare(image: &[u8], recorded: &str) {
    let recorded: Vec<&str> = recorded.lines().filter(|line| !line.starts_with('#')).collect();
    for (format, image) in [(RAW, image), (Format::Plain, &plain(image))] {
        let text = tree_text(format, image).unwrap();
        let ours: Vec<&str> = text.lines().collect();
        assert_eq!(ours.len(), recorded.len());
        for (ours, recorded) in ours.iter().zip(&recorded) {
            assert_eq!(ours, recorded, "{format:?}");
        }
    }
}

fn plain(image: &[u8]) -> Vec<u8> {
    let mut plain = vec![0; image.len() / RAW.page_bytes() * Format::Plain.page_bytes()];
    reader::to_plain(image, &mut plain).unwrap();
    plain
}

#[test]
fn bench_sample() {
    let image = std::fs::read(data("bench-sample.ps2")).unwrap();
    compare(&image, &std::fs::read_to_string(data("bench-sample.tree")).unwrap());
    let counts = check(RAW, &image).unwrap();
    assert_eq!(check(Format::Plain, &plain(&image)), Ok(counts));
    assert_eq!(counts, Counts { clusters: 56, free: 22, reached: 8, orphaned: 0, held: 0, mended: 0 });
}

#[test]
fn full_small() {
    let unpacked = std::env::temp_dir().join(format!("full-small-{}.ps2", std::process::id()));
    let file = std::fs::File::create(&unpacked).unwrap();
    let status = Command::new("xz").args(["-dc", &data("full-small.ps2.xz")]).stdout(file).status().unwrap();
    let image = std::fs::read(&unpacked).unwrap();
    std::fs::remove_file(&unpacked).unwrap();
    assert!(status.success());
    compare(&image, &std::fs::read_to_string(data("full-small.tree")).unwrap());

    let start = std::time::Instant::now();
    let counts = check(RAW, &image).unwrap();
    println!("check of the full card: {:?}", start.elapsed());
    // None of its chains lies in the tail.
    assert_eq!((counts.free + counts.reached, counts.orphaned, counts.held), (8000, 0, 135));
    assert!(start.elapsed().as_millis() < 500);
}

/// The same changes by our rules take the same clusters and leave the same table.
#[test]
fn placement_agrees() {
    let theirs = std::fs::read(data("bench-sample.ps2")).unwrap();
    let time = reader::find(RAW, &theirs, b"/SAVE").unwrap().created;
    let mut ours = reader::build::bench(RAW);
    reader::make_dir(RAW, &mut ours, b"/SAVE", &time).unwrap();
    for path in [&b"/SAVE/A"[..], b"/SAVE/empty", b"/SAVE/icon.sys"] {
        let bytes = reader::tree(RAW, &theirs).unwrap()[path].bytes().unwrap();
        reader::create(RAW, &mut ours, path, &time, &bytes).unwrap();
    }
    assert_eq!(reader::page::read(RAW, &ours, 18), reader::page::read(RAW, &theirs, 18));
    for (one, other) in lines(RAW, &ours).unwrap().iter().zip(lines(RAW, &theirs).unwrap()).skip(1) {
        assert_eq!(one.path, other.path);
        assert_eq!(one.item.pieces, other.item.pieces);
        assert_eq!((one.entry.length, one.entry.first_cluster), (other.entry.length, other.entry.first_cluster));
        assert_eq!((one.entry.created, one.entry.modified), (other.entry.created, other.entry.modified));
    }
    // The new directory's `.` names its parent's cluster and its slot there, as document 01 says.
    let dot = |image: &[u8]| reader::Entry::parse(&reader::page::read(RAW, image, 24).unwrap());
    assert_eq!((dot(&ours).first_cluster, dot(&ours).dir_entry), (0, 2));
    assert_eq!((dot(&theirs).first_cluster, dot(&theirs).dir_entry), (0, 2));
}
