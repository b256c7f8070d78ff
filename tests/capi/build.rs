//! Links the static library of the C entry, which `tools/build capi` makes in the repository's root.

use std::env;
use std::path::PathBuf;

/// The library's folder, from the repository's root.
const FOLDER: &str = "target/staticlib";
const LIBRARY: &str = "capi";

fn main() {
    let manifest = env::var_os("CARGO_MANIFEST_DIR").expect("cargo names the crate's folder");
    let folder = PathBuf::from(manifest).join("../..").join(FOLDER);
    let file = format!("lib{LIBRARY}.a");
    let library = folder.join(&file);
    println!("cargo::rerun-if-changed={}", library.display());
    if library.is_file() {
        println!("cargo::rustc-link-search=native={}", folder.display());
        println!("cargo::rustc-link-lib=static={LIBRARY}");
    } else {
        println!(
            "cargo::error={FOLDER}/{file} is missing: `tools/build capi` in the repository's root makes it"
        );
    }
}
