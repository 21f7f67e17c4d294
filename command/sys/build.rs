//! Links the proved library, `libps2card.a`, from `$PS2CARD_LIB_DIR` or the repository's own build.

use std::env;
use std::path::{Path, PathBuf};

fn main() {
    println!("cargo:rerun-if-env-changed=PS2CARD_LIB_DIR");
    let folder = env::var_os("PS2CARD_LIB_DIR").map(PathBuf::from).unwrap_or_else(|| {
        let manifest = env::var_os("CARGO_MANIFEST_DIR").expect("cargo sets this");
        Path::new(&manifest).join("../../crates/ps2card/out")
    });
    let archive = folder.join("libps2card.a");
    println!("cargo:rerun-if-changed={}", archive.display());
    assert!(archive.is_file(), "no {}: build the library first, or set PS2CARD_LIB_DIR", archive.display());
    println!("cargo:rustc-env=PS2CARD_ARCHIVE={}", archive.display());
    println!("cargo:rustc-link-search=native={}", folder.display());
    println!("cargo:rustc-link-lib=static=ps2card");
}
