//! Damaged input through every export, in guarded memory: `damaged [TRIALS] [SEED]`, a million trials of each sort if none are named.

use capi::damaged::{SORTS, Trials};
use capi::guard;
use plans::generate::SEED;
use std::env;
use std::error::Error;

const TRIALS: usize = 1_000_000;

/// No thousand trials take so many seconds.
const SECONDS: u32 = 120;

/// Progress is shown after so many trials.
const SHOWN: usize = 250_000;

fn main() -> Result<(), Box<dyn Error>> {
    let mut arguments = env::args().skip(1);
    let count = arguments.next().map_or(Ok(TRIALS), |count| count.parse())?;
    let seed = arguments.next().map_or(Ok(SEED), |seed| seed.parse())?;
    guard::watch(SECONDS);
    let mut trials = Trials::new(seed);
    for sort in SORTS {
        for number in 0..count {
            guard::trying(number, SECONDS);
            trials.run(sort, number);
            if (number + 1) % SHOWN == 0 {
                eprintln!("damaged: {sort:?}: {} of {count} trials", number + 1);
            }
        }
    }
    for ((sort, call, answer), number) in &trials.answers.counts {
        println!("{sort:?}, {call}: {answer} {number} times");
    }
    for ((call, ground), number) in &trials.answers.grounds {
        println!("{call}: {ground} {number} times");
    }
    println!(
        "damaged: seed {seed}, {count} trials of each of {} sorts, no stray read or write, all ended",
        SORTS.len()
    );
    Ok(())
}
