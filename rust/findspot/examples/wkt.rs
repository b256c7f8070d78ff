//! Well-Known Text as a server takes it: a file is read and prepared, asked and corrected, and the corrected plan is written back.
//!
//!     cargo run --release --example wkt
//!
//! `examples/wkt.c` in the repository is the same in C, and writes the same.

use findspot::{Plan, Point, Prepared, Refusal};
use std::error::Error;
use std::fs;
use std::io::{self, Write};

/// Two polygons, the first with a hole, and an empty member, spaced as PostGIS does.
const FILE: &str = concat!(env!("CARGO_MANIFEST_DIR"), "/../../examples/trench.wkt");

const POINTS: [(i64, i64); 5] = [(5, 5), (4, 5), (1, 5), (12, 12), (31, 1)];

/// A fraction, and a ring that does not end where it begins.
const REFUSED: [&str; 2] = [
    "POLYGON ((0 0, 10 0, 10.5 10, 0 0))",
    "POLYGON ((0 0, 10 0, 10 10))",
];

fn main() -> Result<(), Box<dyn Error>> {
    run(&mut io::stdout())
}

/// Says to `out` what comes of the file.
pub fn run(out: &mut impl Write) -> Result<(), Box<dyn Error>> {
    let file = fs::read(FILE)?;
    // The grammar has no line end, so that of a last line is cut off.
    let text = file.strip_suffix(b"\n").unwrap_or(&file);
    let plan = Plan::from_wkt(text).map_err(|refusal| refusal.explain(text))?;
    writeln!(
        out,
        "{} corners, {} rings, {} polygons",
        plan.corners().len(),
        plan.ring_lengths().len(),
        plan.ring_counts().len()
    )?;

    let mut prepared = Prepared::with_undo(&plan, 16)?;
    show(out, "as read", &prepared)?;
    prepared.move_corner(2, Point::new(20, 20))?;
    show(out, "corner 2 moved to (20, 20)", &prepared)?;

    let written = prepared.to_wkt()?;
    writeln!(out, "{written}")?;
    let again = Plan::from_wkt(written.as_bytes())? == prepared.plan();
    writeln!(out, "read again, it is the same plan: {again}")?;

    for text in REFUSED {
        match Plan::from_wkt(text.as_bytes()) {
            Err(Refusal::OffGrammar(place)) => {
                writeln!(out, "{text}: refused with 21 at byte {place}")?;
            }
            Err(refusal) => writeln!(out, "{text}: refused with {}", refusal.number())?,
            Ok(_) => writeln!(out, "{text}: read")?,
        }
    }
    Ok(())
}

fn show(out: &mut impl Write, title: &str, prepared: &Prepared) -> io::Result<()> {
    writeln!(out, "{title}:")?;
    for (x, y) in POINTS {
        writeln!(out, "  ({x}, {y}) {}", prepared.locate(Point::new(x, y)))?;
    }
    Ok(())
}
