//! Links the static library of the proved engine, libcapi.a, which `tools/build capi` makes in the repository's root.

use std::env;
use std::path::PathBuf;

/// The variable that may name another folder than the repository's own.
const VARIABLE: &str = "FINDSPOT_LIB";
/// The library's folder, from the repository's root.
const FOLDER: &str = "target/staticlib";
const LIBRARY: &str = "capi";

fn main() {
    println!("cargo::rerun-if-env-changed={VARIABLE}");
    println!("cargo::rerun-if-changed=build.rs");
    if let Err(message) = link() {
        println!("cargo::error={message}");
    }
}

fn link() -> Result<(), String> {
    let architecture = env::var("CARGO_CFG_TARGET_ARCH").unwrap_or_default();
    if architecture != "x86_64" {
        return Err(format!(
            "lib{LIBRARY}.a holds x86-64 code, and the target is {architecture}"
        ));
    }
    let folder = library_folder()?;
    let library = folder.join(format!("lib{LIBRARY}.a"));
    println!("cargo::rerun-if-changed={}", library.display());
    if !library.is_file() {
        return Err(format!(
            "{} is missing: run `tools/build {LIBRARY}` in the repository's root, or let {VARIABLE} name the folder that holds lib{LIBRARY}.a",
            library.display()
        ));
    }
    println!("cargo::rustc-link-search=native={}", folder.display());
    println!("cargo::rustc-link-lib=static={LIBRARY}");
    Ok(())
}

/// The folder that the variable names, or the repository's own.
fn library_folder() -> Result<PathBuf, String> {
    let Some(named) = env::var_os(VARIABLE).filter(|named| !named.is_empty()) else {
        let crate_folder =
            env::var_os("CARGO_MANIFEST_DIR").ok_or("cargo does not name the crate's folder")?;
        return Ok(PathBuf::from(crate_folder).join("../..").join(FOLDER));
    };
    let folder = PathBuf::from(named);
    if folder.is_absolute() {
        Ok(folder)
    } else {
        Err(format!("{VARIABLE} has to be an absolute path"))
    }
}
