//! The files of the listing programs and the sample card are the builders' images and the reader's answers.

use reader::build::samples;

fn repository(file: &str) -> Vec<u8> {
    let file = format!("{}/../../{file}", env!("CARGO_MANIFEST_DIR"));
    std::fs::read(&file).unwrap_or_else(|error| panic!("{file}: {error}"))
}

#[test]
fn listed_card() {
    assert_eq!(repository("crates/list/stdin"), samples::save());
    let whole = "card 56\nfree 24\nreached 6\norphaned 0\nheld 0\nmended 0\n\
                 d 3 /SAVE 2000-02-29 12:34:56\nf 1500 /SAVE/A 2000-02-29 12:34:56\n";
    assert_eq!(String::from_utf8(repository("crates/list/stdout")).unwrap(), whole);
}

#[test]
fn many_cards() {
    for (name, image) in samples::all() {
        assert!(repository(&format!("crates/cards/data/{name}.ps2")) == image, "{name}");
    }
    let printed = String::from_utf8(repository("crates/cards/stdout")).unwrap();
    assert_eq!(printed, samples::printed());
    for number in 1..=7 {
        assert!(printed.contains(&format!("\nrefused {number}")), "{number}");
    }
    for time in ["2000-02-29 12:34:56", "2026-11-15 23:53:21", "9999-12-31 23:59:59", "unknown"] {
        assert!(printed.contains(&format!(" {time}\n")), "{time}");
    }
}

#[test]
fn sample_card() {
    assert!(repository("samples/bench.ps2") == samples::shop());
}
