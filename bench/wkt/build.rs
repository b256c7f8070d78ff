//! Links GEOS's C library, where Debian's package libgeos-dev has put it.

use std::process::Command;

fn main() {
    println!("cargo::rerun-if-changed=build.rs");
    match flags() {
        Some(flags) => flags.split_whitespace().for_each(link),
        None => println!(
            "cargo::error=GEOS is not at hand: geos-config, of Debian's package libgeos-dev, says where it is"
        ),
    }
}

/// What geos-config tells a linker of C, as in `-L/usr/lib -lgeos_c`.
fn flags() -> Option<String> {
    let output = Command::new("geos-config").arg("--clibs").output().ok()?;
    String::from_utf8(output.stdout).ok()
}

fn link(flag: &str) {
    if let Some(folder) = flag.strip_prefix("-L") {
        println!("cargo::rustc-link-search=native={folder}");
    } else if let Some(library) = flag.strip_prefix("-l") {
        println!("cargo::rustc-link-lib={library}");
    }
}
