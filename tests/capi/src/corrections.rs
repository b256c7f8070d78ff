//! Whether a correction did what document 01 asks of it: the answer of its correction book, nothing written but what it may write, tables
//! sound by item 9, and all as first prepared where all is undone.

use crate::exports::State;
use crate::prepared::{Prepared, Tables};
use crate::soundness::{self, Cuts};
use plans::model::{Call, Model};
use plans::plan::Plan;

/// A correction, the tables first prepared, and what was there before it.
pub struct Correction<'a> {
    pub call: Call,
    pub first: &'a Prepared,
    pub before: Prepared,
}

impl Correction<'_> {
    /// Checks the answer, and the tables and the state after it; the model has made the correction too, and was answered `due`.
    pub fn check(
        &self,
        answer: Result<(), u64>,
        due: Result<(), u64>,
        after: &Prepared,
        model: &Model,
    ) -> Result<(), String> {
        hold(answer == due, || format!("{answer:?} where {due:?} is due"))?;
        if due.is_err() {
            return hold(*after == self.before, || "a refusal wrote".to_string());
        }
        let state = State {
            undo_depth: model.depth() as u64,
            ..self.before.state
        };
        hold(after.state == state, || format!("{:?}", after.state))?;
        self.check_frame(&after.tables, model.plan())?;
        soundness::check(model.plan(), after, Cuts::AsTheyAre)?;
        hold(model.depth() > 0 || self.is_as_first(&after.tables), || {
            "all is undone, and the tables are not those first prepared".to_string()
        })
    }

    /// Whether tables are those first prepared. What stands in undo rows that are free again is nobody's affair.
    fn is_as_first(&self, after: &Tables) -> bool {
        let first = Tables {
            undo: after.undo.clone(),
            ..self.first.tables.clone()
        };
        *after == first
    }

    /// Checks that nothing is written but the corner, one undo record, and boxes above the corner's edges.
    fn check_frame(&self, after: &Tables, plan: &Plan) -> Result<(), String> {
        let before = &self.before.tables;
        let corner = self.corner();
        for place in 0..before.corners.len() {
            let other = place / 2 != corner && before.corners[place] != after.corners[place];
            hold(!other, || format!("coordinate {place} was written"))?;
        }
        hold(before.edges == after.edges, || "an edge moved".to_string())?;
        hold(before.parts == after.parts, || "a part moved".to_string())?;
        let undo = self.due_records(corner);
        hold(after.undo == undo, || {
            format!("the undo table is {:?} where {undo:?} is due", after.undo)
        })?;
        let edges = [corner, previous_corner(plan, corner)];
        for place in 0..before.boxes.len() {
            let same = before.boxes[place] == after.boxes[place];
            hold(same || is_above(before, place, &edges), || {
                format!("the box of node {place}, which has none of the edges, was written")
            })?;
        }
        Ok(())
    }

    /// The undo table that is due: a move writes one row, an undo none.
    fn due_records(&self, corner: usize) -> Vec<[i64; 3]> {
        let before = &self.before.tables;
        let mut undo = before.undo.clone();
        if matches!(self.call, Call::Move { .. }) {
            let depth = self.before.state.undo_depth as usize;
            let (x, y) = (before.corners[2 * corner], before.corners[2 * corner + 1]);
            undo[depth] = [corner as i64, x, y];
        }
        undo
    }

    /// The corner that an accepted correction places.
    fn corner(&self) -> usize {
        match self.call {
            Call::Move { corner, .. } => corner,
            Call::Undo => {
                let depth = self.before.state.undo_depth as usize;
                self.before.tables.undo[depth - 1][0] as usize
            }
        }
    }
}

/// Whether a node has one of these edges among its own.
fn is_above(tables: &Tables, node: usize, edges: &[usize]) -> bool {
    let part = tables.parts.get(node).and_then(|&[first, count, _]| {
        let end = first.checked_add(count)?;
        tables.edges.get(first..end)
    });
    part.is_some_and(|part| part.iter().any(|edge| edges.contains(edge)))
}

/// That a fact holds, or else what is the case instead.
fn hold(fact: bool, what: impl FnOnce() -> String) -> Result<(), String> {
    if fact { Ok(()) } else { Err(what()) }
}

/// The corner from which an edge leads to a corner: the one before it in its ring.
fn previous_corner(plan: &Plan, corner: usize) -> usize {
    let mut first = 0;
    for &length in &plan.ring_lengths {
        if corner < first + length {
            let last = first + length - 1;
            return if corner == first { last } else { corner - 1 };
        }
        first += length;
    }
    corner
}
