//! Two versions beside each other: their answers, and their times.

use crate::engine::{Engine, Version};
use std::fmt::Debug;
use timing::in_turn::{Effort, pairs_in_turn};

/// An error where two answers differ.
pub fn same<T: PartialEq + Debug>(
    [before, after]: [T; 2],
    what: impl Fn() -> String,
) -> Result<(), String> {
    match before == after {
        true => Ok(()),
        false => Err(format!(
            "{} is {before:?} before and {after:?} after",
            what()
        )),
    }
}

/// Nanoseconds of both versions, and how many times as long the later one takes.
#[derive(Clone, Copy)]
pub struct Compared {
    pub before: f64,
    pub after: f64,
    pub ratio: f64,
}

impl Compared {
    /// From what each repetition gives, after and before. These two are next to each other in time, so that the ratio is taken of them first.
    pub fn of(pairs: &[(f64, f64)]) -> Compared {
        let mean = |number: fn(&(f64, f64)) -> f64| middle_mean(pairs.iter().map(number).collect());
        Compared {
            before: mean(|(_, before)| *before),
            after: mean(|(after, _)| *after),
            ratio: mean(|(after, before)| after / before),
        }
    }

    /// From a way to measure, in turn.
    pub fn in_turn(effort: Effort, measure: impl Fn(Engine) -> f64) -> Compared {
        Compared::of(&pairs_of(effort, measure))
    }
}

/// What a way to measure gives of both versions, after and before, in turn.
pub fn pairs_of<T>(effort: Effort, measure: impl Fn(Engine) -> T) -> Vec<(T, T)> {
    pairs_in_turn(
        effort,
        |repetition| measure(Version::After.at(repetition)),
        |repetition| measure(Version::Before.at(repetition)),
    )
}

/// The mean of the middle half of several numbers: what stands out on either side does not count, and all copies of a version do.
fn middle_mean(mut numbers: Vec<f64>) -> f64 {
    numbers.sort_by(f64::total_cmp);
    let quarter = numbers.len() / 4;
    let middle = &numbers[quarter..numbers.len() - quarter];
    middle.iter().sum::<f64>() / middle.len() as f64
}

/// The longer of the times of both versions.
pub fn longer(time: impl Fn(Engine) -> f64) -> f64 {
    let [before, after] = Version::BOTH.map(|version| time(version.first()));
    before.max(after)
}

/// How often a piece of work that takes so long is done in one repetition.
pub fn rounds(effort: Effort, time: f64) -> usize {
    ((effort.lasting / time) as usize).max(1)
}
