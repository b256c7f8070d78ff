//! Compares the original's replies with those of the proved engine: `compare --help`.

use differential::classes::Tally;
use differential::engine::{Engine, Exports};
use differential::faults::{self, Double, FAULTS, Fault};
use differential::report::written;
use differential::runs::{self, Failure, MODES, Mode, Portion};
use plans::generate::SEED;
use plans::sessions::Session;
use plans::shrink;
use std::env;
use std::ops::Range;
use std::process::ExitCode;
use std::str::FromStr;

/// What is asked for.
struct Arguments {
    modes: Vec<Mode>,
    seed: u64,
    portions: Option<Range<usize>>,
    long: bool,
    faults: bool,
    help: bool,
}

fn main() -> ExitCode {
    let arguments = match arguments(env::args().skip(1)) {
        Ok(arguments) => arguments,
        Err(message) => {
            eprintln!("compare: {message}; --help says what there is");
            return ExitCode::from(2);
        }
    };
    if arguments.help {
        print!("{}", help());
        return ExitCode::SUCCESS;
    }
    if arguments.faults {
        for fault in FAULTS {
            println!("{fault:?}: {}", try_fault(fault, arguments.seed));
        }
        return ExitCode::SUCCESS;
    }
    compare_all(&arguments)
}

fn help() -> String {
    let mut help = String::from(
        "Compares the replies of the original Rust with those of the proved engine's exports.\n\
         \n\
         compare [PART ..] [--seed N] [--portions A..B] [--long]\n\
         compare --faults [--seed N]\n\
         \n\
         Parts, all of them if none is named:\n",
    );
    for mode in MODES {
        let name = mode.name();
        for (number, line) in mode.describe().lines().enumerate() {
            let name = if number == 0 { name } else { "" };
            help.push_str(&format!("  {name:<8} {line}\n"));
        }
    }
    help.push_str(&format!(
        "\n\
         --seed N         the seed, {SEED} if none is named\n\
         --portions A..B  of each part the portions from A up to but not with B: a run that was cut off begins\n\
         \x20                again at the portion that it did not finish\n\
         --long           all portions of the long run, where none are named\n\
         --faults         tries the comparison on engines with a fault each, and says which part sees it\n\
         \n\
         Progress is shown on standard error. The last line has the counts. It ends with status 1 at the first\n\
         difference, after making the plan as small as it can be, and where a class of kind, ray and reply, or an\n\
         answer to a correction, came up less than 1,000 times.\n"
    ));
    help
}

fn arguments(given: impl Iterator<Item = String>) -> Result<Arguments, String> {
    let mut arguments = Arguments {
        modes: Vec::new(),
        seed: SEED,
        portions: None,
        long: false,
        faults: false,
        help: false,
    };
    let mut given = given;
    while let Some(argument) = given.next() {
        let mut value = || given.next().ok_or(format!("{argument} wants a value"));
        match argument.as_str() {
            "--seed" => arguments.seed = number(&value()?)?,
            "--portions" => arguments.portions = Some(range(&value()?)?),
            "--long" => arguments.long = true,
            "--faults" => arguments.faults = true,
            "--help" => arguments.help = true,
            name => arguments.modes.push(mode(name)?),
        }
    }
    if arguments.modes.is_empty() {
        arguments.modes = MODES.to_vec();
    }
    match lacking(&arguments) {
        Some(message) => Err(message),
        None => Ok(arguments),
    }
}

/// A portion that is asked for and that there is none of.
fn lacking(arguments: &Arguments) -> Option<String> {
    let last = arguments.portions.as_ref()?.end.checked_sub(1)?;
    let mode = arguments
        .modes
        .iter()
        .find(|mode| !mode.has_portion(last))?;
    Some(format!("{} has no portion {last}", mode.name()))
}

fn mode(name: &str) -> Result<Mode, String> {
    let named = MODES.into_iter().find(|mode| mode.name() == name);
    named.ok_or(format!("{name} is no part"))
}

fn number<T: FromStr>(text: &str) -> Result<T, String> {
    text.parse().map_err(|_| format!("{text} is no number"))
}

fn range(text: &str) -> Result<Range<usize>, String> {
    let ends = text.split_once("..");
    let (first, end) = ends.ok_or("portions are written A..B".to_string())?;
    Ok(number(first)?..number(end)?)
}

/// Compares every part that is asked for, to the first difference.
fn compare_all(arguments: &Arguments) -> ExitCode {
    let mut whole = Tally::default();
    let mut good = true;
    for &mode in &arguments.modes {
        let (tally, failure) = compare_mode(mode, arguments);
        whole += &tally;
        if let Some(failure) = failure {
            show(&Exports, mode, &failure);
            return ExitCode::FAILURE;
        }
        for lack in mode.lacks(&tally) {
            println!("compare: {}: {lack}", mode.name());
            good = false;
        }
    }
    print_counts(&whole);
    println!("compare: seed {}: {whole}, 0 differ", arguments.seed);
    if good {
        ExitCode::SUCCESS
    } else {
        ExitCode::FAILURE
    }
}

/// Compares a part, portion by portion.
fn compare_mode(mode: Mode, arguments: &Arguments) -> (Tally, Option<Box<Failure>>) {
    let all = mode.portions(arguments.long);
    let portions = arguments.portions.clone().unwrap_or(all);
    let mut whole = Tally::default();
    for number in portions {
        let mut portion = Portion::new(&Exports, mode, number, arguments.seed);
        let failure = portion.run().err();
        whole += &portion.tally;
        if failure.is_some() {
            return (whole, failure);
        }
        let name = mode.name();
        println!(
            "compare: {name}, portion {number}: {}, 0 differ",
            portion.tally
        );
    }
    (whole, None)
}

fn print_counts(tally: &Tally) {
    print!("{}", tally.classes);
    for (number, count) in &tally.corrections {
        match number {
            0 => println!("corrections accepted: {count}"),
            number => println!("corrections refused with {number}: {count}"),
        }
    }
    println!("all moves undone: {}", tally.undone);
    println!("plans out of range: {}", tally.out_of_range);
    println!("plans of more than 512 edges: {}", tally.above_512_edges);
    println!("plans of more than 128 rings: {}", tally.above_128_rings);
}

/// Shows a difference, and the smallest session that was found to show one too.
fn show(engine: &dyn Engine, mode: Mode, failure: &Failure) {
    println!("compare: {}: {}", failure.name, failure.difference);
    let (smallest, difference) = shrunk(engine, mode, failure);
    println!(
        "the smallest plan found: {difference}\n{}",
        written(&smallest)
    );
}

/// The smallest session that was found to differ, and how.
fn shrunk(engine: &dyn Engine, mode: Mode, failure: &Failure) -> (Session, String) {
    let differs = |session: &Session| runs::compare(engine, mode, session, &mut Tally::default());
    let smallest = shrink::shrunk(&failure.session, |session| differs(session).is_err());
    let difference = differs(&smallest).err().unwrap_or_default();
    (smallest, difference)
}

/// Which part sees a fault first, and by what.
fn try_fault(fault: Fault, seed: u64) -> String {
    let engine = Double { fault: Some(fault) };
    let Some((mode, failure)) = faults::first_difference(Some(fault), seed) else {
        return "changes no answer".to_string();
    };
    let (smallest, difference) = shrunk(&engine, mode, &failure);
    let text = written(&smallest).replace('\t', " ").replace('\n', "; ");
    format!("{}: {difference}: {text}", failure.name)
}
