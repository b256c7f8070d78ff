//! Times reading and writing Well-Known Text of up to 65,536 bytes beside GEOS, once both agree on generated texts, and writes the figures as a
//! Markdown table to standard output. What it is at stands on standard error.

mod agree;
mod geos;
mod shapes;

use agree::{ended, written};
use capi::exports::Handed;
use capi::reader::LONGEST;
use capi::wkt::{read_plan, read_wkt, write_wkt};
use geos::Geos;
use plans::plan::Plan;
use shapes::{SHAPES, largest};
use std::cell::RefCell;
use std::env;
use std::hint::black_box;
use std::process::ExitCode;
use timing::clock::timed;
use timing::in_turn::{Effort, Figures, means_in_turn};
use timing::markdown::{compared, grouped, line, rule};

const HELP: &str = "\
wkt [--quick]

Compares reading and writing of Well-Known Text with GEOS on generated texts, then times both.
A table in Markdown goes to standard output, progress to standard error.

  --quick   one short repetition of each: the figures say little";

fn main() -> ExitCode {
    let arguments: Vec<String> = env::args().skip(1).collect();
    let arguments: Vec<&str> = arguments.iter().map(String::as_str).collect();
    match arguments[..] {
        [] => run(Effort::WHOLE),
        ["--quick"] => run(Effort::QUICK),
        ["--help"] => println!("{HELP}"),
        _ => {
            eprintln!("wkt: unknown arguments {arguments:?}; `--help` says what it takes");
            return ExitCode::from(2);
        }
    }
    ExitCode::SUCCESS
}

fn run(effort: Effort) {
    let geos = Geos::new();
    let texts = agree::assert_agreement(&geos);
    eprintln!("wkt: GEOS reads {texts} texts as we do, and writes what we write");
    println!(
        "Reading and writing, ns, beside GEOS {}:\n",
        Geos::version()
    );
    let columns = [
        "bytes",
        "corners",
        "rings",
        "read: ours",
        "GEOS",
        "ratio",
        "write: ours",
        "GEOS",
        "ratio",
    ];
    line("text", columns.map(str::to_string));
    rule(columns.len());
    for (name, shape) in SHAPES {
        eprintln!("wkt: {name}");
        write_row(name, &geos, &largest(shape), effort);
    }
}

fn write_row(name: &str, geos: &Geos, plan: &Plan, effort: Effort) {
    let text = written(plan);
    let sizes = [
        text.len(),
        plan.coordinates.len() / 2,
        plan.ring_lengths.len(),
    ];
    let sizes = sizes.map(|size| grouped(size as f64));
    let reading = compared(compare_reading(geos, plan, &text, effort));
    let writing = compared(compare_writing(geos, plan, &text, effort));
    line(name, sizes.into_iter().chain(reading).chain(writing));
}

/// Reading by both: ours into tables that are lent, theirs into a geometry, which is dropped outside the measured time.
fn compare_reading(geos: &Geos, plan: &Plan, text: &[u8], effort: Effort) -> Figures {
    let ended = ended(text);
    let read = geos.read(&ended).expect("GEOS reads it").plan();
    assert!(read == *plan && read_plan(text).as_ref() == Ok(plan));
    let corners = RefCell::new(plan.coordinates.clone());
    let lengths = RefCell::new(plan.ring_lengths.clone());
    let counts = RefCell::new(plan.ring_counts.clone());
    let ours = || {
        let (mut corners, mut lengths) = (corners.borrow_mut(), lengths.borrow_mut());
        let mut counts = counts.borrow_mut();
        let read = || read_wkt(black_box(text), &mut corners, &mut lengths, &mut counts);
        let (time, reading) = timed(read);
        assert_eq!(reading.refusal, 0);
        time
    };
    let theirs = || {
        let (time, geometry) = timed(|| geos.read(black_box(&ended)));
        assert!(geometry.is_some());
        time
    };
    means_in_turn(effort, ours, theirs)
}

/// Writing by both: ours to an output that is lent, theirs to a text, which is dropped outside the measured time.
fn compare_writing(geos: &Geos, plan: &Plan, text: &[u8], effort: Effort) -> Figures {
    let geometry = geos.read(&ended(text)).expect("GEOS reads it");
    let output = RefCell::new(vec![0; LONGEST]);
    let ours = || {
        let mut output = output.borrow_mut();
        let (time, writing) = timed(|| write_wkt(black_box(Handed::of(plan)), &mut output));
        assert_eq!(writing.length, text.len() as u64);
        time
    };
    let theirs = || {
        let (time, written) = timed(|| black_box(&geometry).write());
        assert!(!written.bytes().is_empty());
        time
    };
    means_in_turn(effort, ours, theirs)
}
