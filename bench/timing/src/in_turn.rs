//! Two ways to do a thing, ours and another, timed in turn.

use crate::clock::median;

/// How much is measured.
#[derive(Clone, Copy)]
pub struct Effort {
    /// How often each operation is repeated; the median counts.
    pub repetitions: usize,
    /// How many nanoseconds one repetition of many calls should take.
    pub lasting: f64,
}

impl Effort {
    pub const WHOLE: Effort = Effort {
        repetitions: 7,
        lasting: 5e7,
    };

    /// Enough to see that all of it runs.
    pub const QUICK: Effort = Effort {
        repetitions: 1,
        lasting: 1e6,
    };
}

/// Nanoseconds a call.
#[derive(Clone, Copy)]
pub struct Figures {
    pub ours: f64,
    pub theirs: f64,
}

/// What two ways to measure give, ours and theirs, taken in turn: a pair a repetition, whose number both are told.
pub fn pairs_in_turn<T>(
    effort: Effort,
    ours: impl Fn(usize) -> T,
    theirs: impl Fn(usize) -> T,
) -> Vec<(T, T)> {
    let pair = |repetition| {
        if repetition % 2 == 0 {
            let of_ours = ours(repetition);
            (of_ours, theirs(repetition))
        } else {
            let of_theirs = theirs(repetition);
            (ours(repetition), of_theirs)
        }
    };
    (0..effort.repetitions).map(pair).collect()
}

/// The medians of two ways to measure, taken in turn.
pub fn in_turn(effort: Effort, ours: impl Fn() -> f64, theirs: impl Fn() -> f64) -> Figures {
    let pairs = pairs_in_turn(effort, |_| ours(), |_| theirs());
    let (of_ours, of_theirs) = pairs.into_iter().unzip();
    Figures {
        ours: median(of_ours),
        theirs: median(of_theirs),
    }
}

/// The same of two ways that give the time of one call each: the mean of as many as there is time for.
pub fn means_in_turn(effort: Effort, ours: impl Fn() -> f64, theirs: impl Fn() -> f64) -> Figures {
    let rounds = rounds(effort, ours().max(theirs()));
    in_turn(effort, || mean(rounds, &ours), || mean(rounds, &theirs))
}

/// How often a piece of work that takes so long is done in one repetition.
fn rounds(effort: Effort, time: f64) -> usize {
    (effort.lasting / time.max(1.0)).clamp(1.0, 1e6) as usize
}

fn mean(rounds: usize, time: impl Fn() -> f64) -> f64 {
    (0..rounds).map(|_| time()).sum::<f64>() / rounds as f64
}
