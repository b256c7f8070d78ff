//! Takes the original's source from the folder that `POLYCLIP_SRC` names into the build folder,
//! with one edit: `Prepared::locate_doubled` is made public.

use std::path::{Path, PathBuf};
use std::{env, fs};

const VARIABLE: &str = "POLYCLIP_SRC";

/// The modules that the location code needs, each a file of the source folder.
const MODULES: [&str; 7] = [
    "geom",
    "predicates",
    "query",
    "distance",
    "dir",
    "wide",
    "prepared",
];

/// The module that is edited, and how: the text has to stand there exactly once.
const EDITED_MODULE: &str = "prepared";
const PRIVATE: &str = "    fn locate_doubled(&self, m2: Point) -> Location {";
const PUBLIC: &str = "    pub fn locate_doubled(&self, m2: Point) -> Location {";

fn main() {
    println!("cargo::rerun-if-env-changed={VARIABLE}");
    // The source has an optional feature that is left off here.
    println!("cargo::rustc-check-cfg=cfg(feature, values(\"serde\"))");
    if let Err(message) = take_modules() {
        println!("cargo::error={message}");
    }
}

/// Copies every module and writes `modules.rs`, which declares them.
fn take_modules() -> Result<(), String> {
    let source = source_folder()?;
    let out = PathBuf::from(env::var_os("OUT_DIR").ok_or("OUT_DIR is not set")?);
    let mut declarations = String::new();
    for module in MODULES {
        let copy = copy_module(&source, &out, module)?;
        declarations.push_str(&declaration(module, &copy));
    }
    write(&out.join("modules.rs"), &declarations)
}

/// The folder that holds the original's source.
fn source_folder() -> Result<PathBuf, String> {
    let folder = env::var_os(VARIABLE).map(PathBuf::from).ok_or(format!(
        "{VARIABLE} is not set: it has to name the folder that holds the original's source (geom.rs, prepared.rs and so on)"
    ))?;
    if folder.is_absolute() {
        Ok(folder)
    } else {
        Err(format!("{VARIABLE} has to be an absolute path"))
    }
}

/// Copies one module into the build folder and gives the copy's place.
fn copy_module(source: &Path, out: &Path, module: &str) -> Result<PathBuf, String> {
    let file = format!("{module}.rs");
    let original = source.join(&file);
    println!("cargo::rerun-if-changed={}", original.display());
    let mut text = fs::read_to_string(&original)
        .map_err(|error| format!("{VARIABLE}: cannot read {}: {error}", original.display()))?;
    if module == EDITED_MODULE {
        text = with_public_locate_doubled(&text)?;
    }
    let copy = out.join(&file);
    write(&copy, &text)?;
    Ok(copy)
}

/// The one edit of the original's text.
fn with_public_locate_doubled(text: &str) -> Result<String, String> {
    match text.matches(PRIVATE).count() {
        1 => Ok(text.replace(PRIVATE, PUBLIC)),
        count => Err(format!(
            "{EDITED_MODULE}.rs holds `{}` {count} times where it is expected once",
            PRIVATE.trim()
        )),
    }
}

/// The line of `modules.rs` that declares a module; the original's own lints are not ours to mend.
fn declaration(module: &str, copy: &Path) -> String {
    format!(
        "#[allow(dead_code, clippy::all)]\n#[path = {:?}]\npub mod {module};\n",
        copy.display().to_string()
    )
}

fn write(path: &Path, text: &str) -> Result<(), String> {
    fs::write(path, text).map_err(|error| format!("cannot write {}: {error}", path.display()))
}
