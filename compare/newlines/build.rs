//! Links the proved archive that stands in the repository's `target/staticlib`.

use std::path::PathBuf;

fn main() {
    let package = PathBuf::from(std::env::var_os("CARGO_MANIFEST_DIR").unwrap_or_default());
    let folder = package.join("../../target/staticlib");
    let archive = folder.join("liblines.a");
    println!("cargo::rerun-if-changed={}", archive.display());
    if !archive.is_file() {
        println!("cargo::error=target/staticlib/liblines.a is missing: `./fever compare` at the top of the repository proves and writes it");
        return;
    }
    println!("cargo::rustc-link-search=native={}", folder.display());
    println!("cargo::rustc-link-lib=static=lines");
}
