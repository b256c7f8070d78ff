//! Times the library beside an earlier version of itself, once both give the same replies, and writes the figures as Markdown tables to standard
//! output. What it is at stands on standard error.

mod compared;
mod engine;
mod exports;
mod look_up;
mod measure;
mod prepared;
mod subject;
mod table;
mod turns;

use measure::Measured;
use shapes::arguments::{Choice, Wanted};
use shapes::{Named, SHAPES};
use std::env;
use std::process::ExitCode;
use table::{Row, TurnRow};
use timing::in_turn::Effort;

const SIZES: [usize; 2] = [1_000, 100_000];

/// The name of the rings of which turns are measured, beside those of the shapes.
const TURNS: &str = "turns";

/// Many short repetitions, ten for each copy of a version: what else the machine does meanwhile then costs both versions alike.
const WHOLE: Effort = Effort {
    repetitions: 70,
    lasting: 4e6,
};

const HELP: &str = "\
versions [--quick] [--shape NAME].. [--size CORNERS]..

Times preparing, look-ups, corrections and turns of the library beside an earlier version of it.
Tables in Markdown go to standard output, progress to standard error.
";

fn main() -> ExitCode {
    let names = [shapes::names(), vec![TURNS]].concat();
    let choice = Choice {
        shapes: &names,
        sizes: &SIZES,
    };
    let wanted = match choice.wanted(env::args().skip(1)) {
        Ok(Some(wanted)) => wanted,
        Ok(None) => {
            println!("{HELP}\n{}", choice.help());
            return ExitCode::SUCCESS;
        }
        Err(message) => {
            eprintln!("versions: {message}; `--help` says what it takes");
            return ExitCode::from(2);
        }
    };
    match run(&wanted) {
        Ok(()) => ExitCode::SUCCESS,
        Err(message) => {
            eprintln!("versions: {message}");
            ExitCode::FAILURE
        }
    }
}

/// Compares both versions on all that is wanted, then times them. An error says how they differ.
fn run(wanted: &Wanted) -> Result<(), String> {
    let named = |(name, _): &&Named| wanted.shapes.contains(name);
    let shapes: Vec<Named> = SHAPES.iter().filter(named).copied().collect();
    let powers = match wanted.shapes.contains(&TURNS) {
        true => turns::POWERS.to_vec(),
        false => Vec::new(),
    };
    compare(&shapes, &wanted.sizes, &powers)?;
    let effort = match wanted.quick {
        true => Effort::QUICK,
        false => WHOLE,
    };
    let row = |&shape: &Named| measured_shape(shape, &wanted.sizes, effort);
    let rows = shapes.iter().map(row).collect::<Result<Vec<_>, _>>()?;
    let row = |&power: &u32| measured_turns(power, effort);
    let turns = powers.iter().map(row).collect::<Result<Vec<_>, _>>()?;
    if !rows.is_empty() {
        table::write_shapes(&wanted.sizes, &rows);
    }
    if !turns.is_empty() {
        table::write_turns(&turns);
    }
    Ok(())
}

/// Compares the replies of both versions.
fn compare(shapes: &[Named], sizes: &[usize], powers: &[u32]) -> Result<(), String> {
    eprintln!("versions: comparing replies");
    for &(name, make) in shapes {
        for &size in sizes {
            let place = |message| format!("{name}, {size} corners: {message}");
            measure::agree(&make(size)).map_err(place)?;
        }
    }
    for &power in powers {
        let place = |message| format!("{TURNS}, extent 2^{power}: {message}");
        turns::agree(power).map_err(place)?;
    }
    Ok(())
}

fn measured_shape((name, make): Named, sizes: &[usize], effort: Effort) -> Result<Row, String> {
    let measured = |&size: &usize| {
        eprintln!("versions: {name}, {size} corners");
        measure::measure(&make(size), effort)
    };
    let measured: Result<Vec<Measured>, String> = sizes.iter().map(measured).collect();
    Ok(Row {
        shape: name,
        measured: measured?,
    })
}

fn measured_turns(power: u32, effort: Effort) -> Result<TurnRow, String> {
    eprintln!("versions: {TURNS}, extent 2^{power}");
    let costs = turns::measure(power, effort)?;
    Ok(TurnRow { power, costs })
}
