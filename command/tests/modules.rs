//! The sources of the command: no circle of modules, no long file.

use std::collections::{BTreeMap, BTreeSet};
use std::fs;
use std::path::{Path, PathBuf};

/// Every Rust file below a folder.
fn sources(folder: &Path) -> Vec<PathBuf> {
    let mut files = Vec::new();
    for entry in fs::read_dir(folder).expect("a folder") {
        let path = entry.expect("an entry").path();
        if path.is_dir() {
            files.extend(sources(&path));
        } else if path.extension().is_some_and(|end| end == "rs") {
            files.push(path);
        }
    }
    files
}

/// What each module of the program takes from which others, by the words after `crate::`.
fn imports() -> BTreeMap<String, BTreeSet<String>> {
    let src = Path::new(env!("CARGO_MANIFEST_DIR")).join("src");
    let main = fs::read_to_string(src.join("main.rs")).expect("main.rs");
    let modules: Vec<&str> = main.lines().filter_map(|line| line.strip_prefix("mod ")?.strip_suffix(';')).collect();
    assert!(["arguments", "command", "failure", "output"].iter().all(|name| modules.contains(name)), "{modules:?}");
    let mut imports = BTreeMap::new();
    for module in &modules {
        let mut text = fs::read_to_string(src.join(format!("{module}.rs"))).unwrap_or_default();
        if src.join(module).is_dir() {
            let inner = sources(&src.join(module));
            text.extend(inner.iter().map(|path| fs::read_to_string(path).expect("a file")));
        }
        assert!(!text.is_empty(), "{module}");
        let mut taken = BTreeSet::new();
        for rest in text.split("crate::").skip(1) {
            // One name, or several in braces.
            let names = match rest.strip_prefix('{') {
                Some(list) => list.split('}').next().unwrap_or_default(),
                None => rest.split(|end: char| !end.is_alphanumeric() && end != '_').next().unwrap_or_default(),
            };
            taken.extend(names.split(',').map(|name| name.trim().split("::").next().unwrap_or_default().to_string()));
        }
        taken.retain(|name| modules.contains(&name.as_str()) && name != module);
        imports.insert(module.to_string(), taken);
    }
    imports
}

#[test]
fn no_circle() {
    let mut rest = imports();
    println!("{rest:?}");
    assert!(rest["command"].contains("arguments") && rest["arguments"].contains("failure"), "{rest:?}");
    // Take away whatever takes nothing from what is left; a circle is what stays.
    while let Some(free) = rest.iter().find(|(_, taken)| taken.is_empty()).map(|(name, _)| name.clone()) {
        rest.remove(&free);
        rest.values_mut().for_each(|taken| taken.retain(|name| *name != free));
    }
    assert!(rest.is_empty(), "a circle: {rest:?}");
}

#[test]
fn short_files() {
    let here = Path::new(env!("CARGO_MANIFEST_DIR"));
    for path in sources(&here.join("src")).into_iter().chain(sources(&here.join("tests"))) {
        let lines = fs::read_to_string(&path).expect("a file").lines().count();
        assert!(lines <= 320, "{}: {lines} lines", path.display());
    }
}
