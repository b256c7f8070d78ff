//! Times the proved engine beside the original Rust, shape by shape, and writes the figures as Markdown tables to standard output. What it is
//! at stands on standard error.

mod measure;
mod table;

use measure::{Measured, measure};
use shapes::arguments::{Choice, Wanted};
use shapes::{Named, SHAPES, Shape};
use std::env;
use std::process::ExitCode;
use table::Row;
use timing::in_turn::Effort;

const SIZES: [usize; 3] = [1_000, 100_000, 1_000_000];

const HELP: &str = "\
bench [--quick] [--shape NAME].. [--size CORNERS]..

Times preparing, look-ups and corrections of the proved engine beside the original Rust.
Tables in Markdown go to standard output, progress to standard error.
";

fn main() -> ExitCode {
    let choice = Choice {
        shapes: &shapes::names(),
        sizes: &SIZES,
    };
    match choice.wanted(env::args().skip(1)) {
        Ok(Some(wanted)) => run(&wanted),
        Ok(None) => println!("{HELP}\n{}", choice.help()),
        Err(message) => {
            eprintln!("bench: {message}; `--help` says what it takes");
            return ExitCode::from(2);
        }
    }
    ExitCode::SUCCESS
}

fn run(wanted: &Wanted) {
    let effort = match wanted.quick {
        true => Effort::QUICK,
        false => Effort::WHOLE,
    };
    let row = |&(name, make): &Named| {
        let at = |&size: &usize| measured(name, make, size, effort);
        Row {
            shape: name,
            measured: wanted.sizes.iter().map(at).collect(),
        }
    };
    let named = |(name, _): &&Named| wanted.shapes.contains(name);
    let rows: Vec<Row> = SHAPES.iter().filter(named).map(row).collect();
    table::write(&wanted.sizes, &rows);
}

fn measured(name: &str, make: fn(usize) -> Shape, size: usize, effort: Effort) -> Measured {
    eprintln!("bench: {name}, {size} corners");
    measure(&make(size), effort)
}
