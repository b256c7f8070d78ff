//! Writes inputs of `findspot` with the outputs that are due: `samples FOLDER`. Those that stood there before are gone; other files stay.

use differential::samples;
use std::error::Error;
use std::path::PathBuf;
use std::{env, fs};

fn main() -> Result<(), Box<dyn Error>> {
    let folder = PathBuf::from(env::args().nth(1).ok_or("usage: samples FOLDER")?);
    let files = samples::files();
    fs::create_dir_all(&folder)?;
    for entry in fs::read_dir(&folder)? {
        let path = entry?.path();
        if path
            .extension()
            .is_some_and(|end| end == "input" || end == "output")
        {
            fs::remove_file(path)?;
        }
    }
    for (name, content) in &files {
        fs::write(folder.join(name), content)?;
    }
    println!("samples: {}", files.len() / 2);
    Ok(())
}
