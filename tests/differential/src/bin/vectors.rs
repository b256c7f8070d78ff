//! Writes stored cases with the original's replies: `vectors OUT_FILE [SEED]`.

use differential::stored;
use plans::generate::SEED;
use std::error::Error;
use std::{env, fs};

fn main() -> Result<(), Box<dyn Error>> {
    let mut arguments = env::args().skip(1);
    let file = arguments.next().ok_or("usage: vectors OUT_FILE [SEED]")?;
    let seed = arguments.next().map_or(Ok(SEED), |seed| seed.parse())?;
    let (text, summary) = stored::text(seed);
    fs::write(file, &text)?;
    println!("seed: {seed}");
    println!("bytes: {}", text.len());
    print!("{summary}");
    Ok(())
}
