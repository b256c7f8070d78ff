//! Prepared plans: the exports over tables that are kept in lists.

use crate::exports::{self, Correctable, Corrected, Handed, Lent, Preparing, Shown, State};
use plans::model::Call;
use plans::plan::{Plan, Query};

/// Tables to lend.
#[derive(Clone, Debug, PartialEq, Eq)]
pub struct Tables {
    pub corners: Vec<i64>,
    pub rings: Vec<usize>,
    pub polygons: Vec<usize>,
    pub boxes: Vec<[i64; 4]>,
    pub parts: Vec<[usize; 3]>,
    pub edges: Vec<usize>,
    pub undo: Vec<[i64; 3]>,
}

/// Document 01's N(n).
pub fn node_count(edges: usize) -> usize {
    if edges <= 8 {
        1
    } else {
        let left = edges / 2;
        1 + node_count(left) + node_count(edges - left)
    }
}

impl Tables {
    /// Tables just long enough for a plan, filled with numbers that are no plan's, and no row for undo records.
    pub fn for_plan(plan: &Plan) -> Tables {
        let edges = plan.coordinates.len() / 2;
        let nodes = node_count(edges);
        Tables {
            corners: vec![i64::MIN; 2 * edges],
            rings: vec![usize::MAX; plan.ring_lengths.len()],
            polygons: vec![usize::MAX; plan.ring_counts.len()],
            boxes: vec![[i64::MIN; 4]; nodes],
            parts: vec![[usize::MAX; 3]; nodes],
            edges: vec![usize::MAX; edges],
            undo: Vec::new(),
        }
    }

    /// Prepares a plan in these tables.
    pub fn prepare(&mut self, plan: &Plan) -> Preparing {
        self.prepare_as(plan.kind as u64, plan)
    }

    /// The same with any number for the kind.
    pub fn prepare_as(&mut self, kind: u64, plan: &Plan) -> Preparing {
        let handed = Handed {
            kind,
            ..Handed::of(plan)
        };
        let lent = Lent {
            corners: &mut self.corners,
            rings: &mut self.rings,
            polygons: &mut self.polygons,
            boxes: &mut self.boxes,
            parts: &mut self.parts,
            edges: &mut self.edges,
        };
        exports::prepare(handed, lent)
    }

    /// The tables as a look-up is shown them.
    pub fn shown(&self) -> Shown<'_> {
        Shown {
            corners: &self.corners,
            rings: &self.rings,
            polygons: &self.polygons,
            boxes: &self.boxes,
            parts: &self.parts,
            edges: &self.edges,
        }
    }

    /// The answer through the boxes: a place's number, or minus the refusal number.
    pub fn locate(&self, state: State, query: Query) -> i64 {
        exports::locate(state, self.shown(), query)
    }

    /// The answer ring by ring: a place's number, or minus the refusal number.
    pub fn locate_by_rings(&self, state: State, query: Query) -> i64 {
        exports::locate_by_rings(state, self.shown(), query)
    }

    /// The first point, of a list x, y, x, y, .., that is not outside.
    pub fn first_not_outside(&self, state: State, points: &[i64]) -> Result<Option<usize>, u64> {
        exports::first_not_outside(state, self.shown(), points).answer()
    }

    /// Makes a correction in these tables.
    pub fn correct(&mut self, state: State, call: Call) -> Corrected {
        let tables = Correctable {
            corners: &mut self.corners,
            rings: &self.rings,
            boxes: &mut self.boxes,
            parts: &self.parts,
            edges: &self.edges,
            undo: &mut self.undo,
        };
        exports::correct(state, tables, call)
    }
}

/// A plan with its tables, prepared.
#[derive(Clone, Debug, PartialEq, Eq)]
pub struct Prepared {
    pub state: State,
    pub tables: Tables,
    pub nodes: usize,
}

impl Prepared {
    /// Prepares a plan that is refused by no number.
    pub fn new(plan: &Plan) -> Prepared {
        Prepared::with_undo(plan, 0).expect("the plan is accepted")
    }

    /// Prepares a plan in tables just long enough, with so many rows for undo records, filled with numbers that are no record's. Gives
    /// the answer where the plan is refused.
    pub fn with_undo(plan: &Plan, rows: usize) -> Result<Prepared, Preparing> {
        let mut tables = Tables::for_plan(plan);
        tables.undo = vec![[i64::MIN; 3]; rows];
        let preparing = tables.prepare(plan);
        if preparing.refusal > 0 {
            return Err(preparing);
        }
        Ok(Prepared {
            state: preparing.state,
            tables,
            nodes: preparing.nodes as usize,
        })
    }

    /// The answer through the boxes.
    pub fn locate(&self, query: Query) -> i64 {
        self.tables.locate(self.state, query)
    }

    /// The answer ring by ring.
    pub fn locate_by_rings(&self, query: Query) -> i64 {
        self.tables.locate_by_rings(self.state, query)
    }

    /// The first of the points that is not outside.
    pub fn first_not_outside(&self, points: &[i64]) -> Result<Option<usize>, u64> {
        self.tables.first_not_outside(self.state, points)
    }

    /// Makes a correction and keeps the state that it gives, or gives the number by which it is refused.
    pub fn correct(&mut self, call: Call) -> Result<(), u64> {
        let Corrected { refusal, state } = self.tables.correct(self.state, call);
        self.state = state;
        if refusal == 0 { Ok(()) } else { Err(refusal) }
    }
}
