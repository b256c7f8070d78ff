//! One shape: compared, then each call of both versions timed in turn, repetition after repetition.

use crate::compared::{Compared, longer, rounds, same};
use crate::engine::{Engine, Version};
use crate::exports::Exports;
use crate::look_up::{Asked, LOOK_UPS, LookUp};
use crate::prepared::Prepared;
use crate::subject::Subject;
use plans::plan::Plan;
use shapes::points::{moves, points};
use shapes::{Corner, Shape};
use std::hint::black_box;
use timing::clock::timed;
use timing::in_turn::Effort;

/// The most points that are asked in turn, so that they do not all find their boxes in the nearest cache.
const POINTS: usize = 4_096;

/// How many nanoseconds the replies to one kind of look-up may take where they are compared alone.
const COMPARING: f64 = 1e8;

/// How many moves are compared.
const MOVES: usize = 32;

/// The fewest moves that a figure rests on.
const FEWEST: usize = 8;

/// A corner, and where it is moved to.
type Move = (usize, Corner);

/// What is measured of one shape.
pub struct Measured {
    pub prepare: Compared,
    /// In the order of [`LOOK_UPS`].
    pub look_ups: Vec<Compared>,
    /// A move and its undo.
    pub correction: Compared,
}

/// Measures one shape.
pub fn measure(shape: &Shape, effort: Effort) -> Result<Measured, String> {
    let subject = Subject::new(shape)?;
    let points = points(shape, POINTS);
    let compare = |look_up: &LookUp| {
        let asked = Asked::new(&subject, look_up, &points);
        asked.within(effort.lasting).compare(effort)
    };
    Ok(Measured {
        prepare: compare_preparing(&subject, effort),
        look_ups: LOOK_UPS.iter().map(compare).collect::<Result<_, _>>()?,
        correction: compare_corrections(&subject, &moves(shape, POINTS), effort),
    })
}

/// An error where both versions differ on one shape: in preparing, in look-ups, or in a move with its undo.
pub fn agree(shape: &Shape) -> Result<(), String> {
    let subject = Subject::new(shape)?;
    let points = points(shape, POINTS);
    for look_up in &LOOK_UPS {
        Asked::new(&subject, look_up, &points)
            .within(COMPARING)
            .agree()?;
    }
    let mut both = Version::BOTH.map(|version| subject.prepared(version).clone());
    for corrected in moves(shape, MOVES) {
        moves_agree(&mut both, corrected)?;
    }
    Ok(())
}

/// Compares what a move answers, all corners and a look-up at the new place, and then what the undo answers.
fn moves_agree(both: &mut [Prepared; 2], (corner, place): Move) -> Result<(), String> {
    let moved = each(both, |prepared, exports| {
        let answer = prepared.move_corner(exports, corner, place);
        (answer, prepared.look_up(exports.findspot_locate, place))
    });
    let what = |call| format!("{call} of corner {corner} to {place:?}");
    same(moved, || what("a move"))?;
    let [before, after] = &both;
    if before.corners() != after.corners() {
        return Err(format!("the corners differ after {}", what("a move")));
    }
    let undone = each(both, |prepared, exports| prepared.undo(exports));
    same(undone, || what("the undo of a move"))
}

/// What each version gives of its own tables.
fn each<T>(both: &mut [Prepared; 2], call: impl Fn(&mut Prepared, &Exports) -> T) -> [T; 2] {
    let [before, after] = both;
    [(before, Version::Before), (after, Version::After)]
        .map(|(prepared, version)| call(prepared, version.first().exports()))
}

fn compare_preparing(subject: &Subject, effort: Effort) -> Compared {
    let time = |rounds, engine: Engine| {
        let mut prepared = subject.in_place(engine.version);
        let all = || prepare(&mut prepared, engine.exports(), &subject.plan, rounds);
        timed(all).0 / rounds as f64
    };
    let rounds = rounds(effort, longer(|engine| time(1, engine)));
    Compared::in_turn(effort, |engine| time(rounds, engine))
}

/// Prepares a plan so many times. It is never made part of its caller, so that the same machine code calls all engines.
#[inline(never)]
fn prepare(prepared: &mut Prepared, exports: &Exports, plan: &Plan, rounds: usize) {
    for _ in 0..rounds {
        black_box(prepared.prepare(exports, plan));
    }
}

/// As many of the moves as there is time for, each with its undo.
fn compare_corrections(subject: &Subject, moves: &[Move], effort: Effort) -> Compared {
    let time = |moves: &[Move], engine: Engine| {
        let mut prepared = subject.in_place(engine.version);
        let (time, ()) = timed(|| correct(&mut prepared, engine.exports(), moves));
        time / moves.len() as f64
    };
    let few = &moves[..FEWEST];
    let fitting = rounds(effort, longer(|engine| time(few, engine)));
    let moves = &moves[..fitting.clamp(FEWEST, moves.len())];
    Compared::in_turn(effort, |engine| time(moves, engine))
}

/// Makes each move and undoes it, likewise.
#[inline(never)]
fn correct(prepared: &mut Prepared, exports: &Exports, moves: &[Move]) {
    for &(corner, place) in moves {
        black_box(prepared.move_corner(exports, corner, place));
        black_box(prepared.undo(exports));
    }
}
