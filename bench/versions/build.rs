//! Links two versions of the static library libcapi.a, before and after a change, into one program: several copies of each, since a function's time
//! goes a little by its place in memory. In the names of a copy's exports its version and number stand first, as in `before_0_findspot_locate`.
//! `nm` and `objcopy`, of binutils, make the copies.

use std::env;
use std::fs;
use std::path::{Path, PathBuf};
use std::process::Command;

const LIBRARY: &str = "libcapi.a";

/// The two versions, each with the variable that names its library's folder.
const VERSIONS: [(&str, &str); 2] = [("before", "FINDSPOT_BEFORE"), ("after", "FINDSPOT_AFTER")];

/// How many copies of each are linked.
const COPIES: usize = 7;

/// Each function begins at a multiple of so many bytes, which are a line of the cache.
const ALIGNMENT: &str = "--set-section-alignment=.text.*=64";

fn main() {
    println!("cargo::rerun-if-changed=build.rs");
    for (version, variable) in VERSIONS {
        println!("cargo::rerun-if-env-changed={variable}");
        if let Err(message) = link_version(version, variable) {
            println!("cargo::error={message}");
        }
    }
}

/// Links all copies of a version.
fn link_version(version: &str, variable: &str) -> Result<(), String> {
    let library = library(variable)?;
    println!("cargo::rerun-if-changed={}", library.display());
    let exports = exports(&library)?;
    let folder = env::var_os("OUT_DIR").ok_or("cargo names no folder to write to")?;
    let folder = PathBuf::from(folder);
    println!("cargo::rustc-link-search=native={}", folder.display());
    for number in 0..COPIES {
        let name = format!("{version}_{number}");
        copy(&library, &exports, &folder, &name)?;
        println!("cargo::rustc-link-lib=static={name}");
    }
    Ok(())
}

/// Makes a copy of a library, of this name, in whose exports' names the copy's stands first.
fn copy(library: &Path, exports: &[String], folder: &Path, name: &str) -> Result<(), String> {
    let line = |export: &String| format!("{export} {name}_{export}\n");
    let names = folder.join(format!("{name}.names"));
    write(&names, &exports.iter().map(line).collect::<String>())?;
    let mut copy = Command::new("objcopy");
    copy.arg(ALIGNMENT).arg("--redefine-syms").arg(names);
    copy.arg(library).arg(folder.join(format!("lib{name}.a")));
    output(copy).map(drop)
}

/// The library in the folder that a variable names.
fn library(variable: &str) -> Result<PathBuf, String> {
    let advice = "bench/versions/run names both folders";
    let folder = env::var_os(variable).ok_or(format!("{variable} is not set: {advice}"))?;
    let library = PathBuf::from(folder).join(LIBRARY);
    match library.is_absolute() && library.is_file() {
        true => Ok(library),
        false => Err(format!(
            "{} is no file with an absolute path: {advice}",
            library.display()
        )),
    }
}

/// The names that a library defines for others.
fn exports(library: &Path) -> Result<Vec<String>, String> {
    let mut list = Command::new("nm");
    list.args(["--defined-only", "--extern-only", "--format=posix"])
        .arg(library);
    // A line has the name, its type and its place. The line above a member's names has one word.
    let name = |line: &str| line.split_once(' ').map(|(name, _)| name.to_string());
    Ok(output(list)?.lines().filter_map(name).collect())
}

fn write(file: &Path, text: &str) -> Result<(), String> {
    let failure = |error| format!("{} is not written: {error}", file.display());
    fs::write(file, text).map_err(failure)
}

/// What a program of binutils writes.
fn output(mut command: Command) -> Result<String, String> {
    let program = command.get_program().to_string_lossy().into_owned();
    let missing = |error| format!("{program}, of binutils, does not run: {error}");
    let output = command.output().map_err(missing)?;
    match output.status.success() {
        true => Ok(String::from_utf8_lossy(&output.stdout).into_owned()),
        false => Err(String::from_utf8_lossy(&output.stderr).replace('\n', " ")),
    }
}
