//! Compares the replies to the points of one plan, and the plan's tables.

use crate::classes::Tally;
use crate::engine::Engine;
use crate::oracle::{self, Original};
use capi::prepared::Prepared;
use capi::soundness::{self, Cuts};
use plans::generate::Case;
use plans::plan::{Mode, Plan, Point, Query};
use plans::reference;

/// Of a larger plan no more points than these are asked ring by ring, which takes as long as the plan is large.
const BY_RINGS: usize = 48;

/// The most edges of a plan whose points are all asked ring by ring.
const FEW_EDGES: usize = 24;

/// Prepares a plan and compares tables and replies with the original's, or says where they differ.
pub fn compare(engine: &dyn Engine, case: &Case, tally: &mut Tally) -> Result<(), String> {
    let Case { plan, queries } = case;
    let prepared = Prepared::with_undo(plan, 0).map_err(|answer| format!("refused: {answer:?}"))?;
    if plan.in_range() {
        soundness::check(plan, &prepared, Cuts::AsPrepared)?;
    }
    tally.add_plan(plan);
    compare_prepared(engine, &prepared, plan, queries, tally)
}

/// Compares the replies to points of a plan as it stands with those of the original, which is prepared anew.
pub fn compare_prepared(
    engine: &dyn Engine,
    prepared: &Prepared,
    plan: &Plan,
    queries: &[Query],
    tally: &mut Tally,
) -> Result<(), String> {
    let original = Original::of(plan);
    let replies = original.replies(queries);
    let step = match plan.coordinates.len() / 2 {
        0..=FEW_EDGES => 1,
        _ => queries.len().div_ceil(BY_RINGS).max(1),
    };
    for (place, (&query, &reply)) in queries.iter().zip(&replies).enumerate() {
        expect(
            "through the boxes",
            query,
            reply,
            engine.locate(prepared, query),
        )?;
        if place.is_multiple_of(step) {
            let by_rings = engine.locate_by_rings(prepared, query);
            expect("ring by ring", query, reply, by_rings)?;
            tally.by_rings += 1;
        }
    }
    tally.add_replies(plan, queries, &replies);
    if plan.in_range() {
        for points in point_lists(queries, &replies) {
            compare_first(engine, prepared, &original, &points)?;
            tally.lists += 1;
        }
    }
    Ok(())
}

/// That an answer is the original's reply.
fn expect(how: &str, query: Query, reply: u8, answer: i64) -> Result<(), String> {
    if answer == i64::from(reply) {
        return Ok(());
    }
    Err(format!(
        "{query:?}: the original replies {reply}, {how} the answer is {answer}"
    ))
}

/// The points on the grid and in range: in their order, and with those outside in front.
fn point_lists(queries: &[Query], replies: &[u8]) -> [Vec<Point>; 2] {
    let asked = |(query, _): &(&Query, &u8)| query.mode == Mode::Grid && query.in_range();
    let point = |(query, _): (&Query, &u8)| (query.x, query.y);
    let mut replied: Vec<(&Query, &u8)> = queries.iter().zip(replies).filter(asked).collect();
    let in_order = replied.iter().copied().map(point).collect();
    replied.sort_by_key(|&(_, reply)| reply);
    [in_order, replied.into_iter().map(point).collect()]
}

/// Compares the first point that is not outside.
fn compare_first(
    engine: &dyn Engine,
    prepared: &Prepared,
    original: &Original,
    points: &[Point],
) -> Result<(), String> {
    let coordinates: Vec<i64> = points.iter().flat_map(|&(x, y)| [x, y]).collect();
    let due = original.first_not_outside(points);
    let answer = engine.first_not_outside(prepared, &coordinates);
    if answer == Ok(due) {
        return Ok(());
    }
    Err(format!(
        "the first point not outside: the original has {due:?}, the answer is {answer:?}"
    ))
}

/// Compares the original's replies with those of document 01's rules.
pub fn compare_rules(case: &Case, tally: &mut Tally) -> Result<(), String> {
    let Case { plan, queries } = case;
    let original = oracle::replies(plan, queries);
    let rules = reference::replies(plan, queries);
    for ((&query, &reply), rule) in queries.iter().zip(&original).zip(rules) {
        expect("by the rules", query, reply, rule.into())?;
    }
    tally.add_plan(plan);
    tally.add_replies(plan, queries, &original);
    Ok(())
}
