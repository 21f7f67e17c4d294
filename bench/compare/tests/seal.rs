//! The page layer's seal (docs/ARCHITECTURE.md, `page`): no crate above `page` knows a page's or a cluster's size in
//! bytes, or opens the definitions that do. They go by its laws, so that another image format stays its affair.

use std::fs;
use std::path::{Path, PathBuf};

/// The crates that are sealed off. Programs and the code vectors hold whole images and pages, and are not among them.
const ABOVE: [&str; 11] =
    ["model", "fields", "reached", "layout", "convert", "tree", "lookup", "listing", "change", "claims", "ps2card"];

/// Those that carry the format and never ask which it is.
const BLIND: [&str; 8] = ["model", "fields", "reached", "layout", "tree", "lookup", "listing", "change"];

/// What only `page` may say: sizes in bytes, the sealed definitions opened, and the equations that open them.
const SIZES: [&str; 3] = ["528", "1056", "1_056"];
const SEALED: [&str; 5] = ["pages_in", "page_start", "page_at", "mended_at", "put"];
const EQUATIONS: [&str; 2] = ["page-is", "put_is"];

fn files(folder: &Path, found: &mut Vec<PathBuf>) {
    for entry in fs::read_dir(folder).into_iter().flatten() {
        let path = entry.expect("an entry").path();
        if path.is_dir() {
            files(&path, found);
        } else if path.extension().is_some_and(|end| end == "rt" || end == "antt") {
            found.push(path);
        }
    }
}

/// The words of a line: names and numbers.
fn words(line: &str) -> impl Iterator<Item = &str> {
    line.split(|c: char| !(c.is_alphanumeric() || "_-'·.".contains(c)))
}

/// What a line says that it may not, if anything.
fn broken(line: &str) -> Option<&str> {
    let line = line.trim_start();
    if line.starts_with("--") || line.starts_with("//") {
        return None;
    }
    let opens = line.starts_with("unfolding ") || line.contains("unfolding(");
    let imports = line.starts_with("use Rattle.page");
    words(line)
        .find(|word| SIZES.contains(word) || (opens && SEALED.contains(word)) || (imports && EQUATIONS.contains(word)))
}

/// The sources of a crate.
fn sources(name: &str) -> Vec<PathBuf> {
    let root = Path::new(env!("CARGO_MANIFEST_DIR")).join("../../crates").join(name);
    let mut found = Vec::new();
    for part in ["src", "specs", "proofs"] {
        files(&root.join(part), &mut found);
    }
    assert!(!found.is_empty(), "{name} has no files");
    found
}

/// Whether a line names one of the two formats.
fn picks(line: &str) -> bool {
    line.contains("Format.TheVariants") || line.contains("Format::Raw") || line.contains("Format::Plain")
}

/// The layers between the pages and the calls go by laws over the format, never by cases on it.
#[test]
fn blind() {
    for name in BLIND {
        for file in sources(name) {
            let text = fs::read_to_string(&file).expect("a source");
            assert!(!text.lines().any(picks), "{} picks a format", file.display());
        }
    }
    // The test sees what it looks for.
    assert!(sources("page").iter().any(|file| fs::read_to_string(file).expect("a source").lines().any(picks)));
}

#[test]
fn sealed() {
    for name in ABOVE {
        for file in sources(name) {
            let text = fs::read_to_string(&file).expect("a source");
            for (number, line) in text.lines().enumerate() {
                let said = broken(line);
                assert!(said.is_none(), "{}:{}: {} belongs to `page`", file.display(), number + 1, said.unwrap_or(""));
            }
        }
    }
}

/// The test sees what it looks for, also in `page` itself.
#[test]
fn seen() {
    assert_eq!(broken("    let from = 528 * page;"), Some("528"));
    assert_eq!(broken("unfolding put store_table"), Some("put"));
    assert_eq!(broken("#[tactic(auto, unfolding(page::specs::Page::put))]"), Some("put"));
    assert_eq!(broken("use Rattle.page.proofs.Puts.{page-is, read_none}"), Some("page-is"));
    assert_eq!(broken("-- 528 bytes"), None);
    assert_eq!(broken("put always p bytes image"), None);
    let page = Path::new(env!("CARGO_MANIFEST_DIR")).join("../../crates/page/specs/Page.antt");
    let text = fs::read_to_string(page).expect("the definitions of pages");
    assert!(text.lines().any(|line| broken(line).is_some()));
}
