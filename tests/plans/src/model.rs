//! Corrections of a plan's corners, and document 01's correction book: what each of them is answered, and the corners that stand after it.

use crate::plan::{GRID_LIMIT, Plan, Point, within};

/// The most records that an undo table holds, however long it is.
const MOST_RECORDS: usize = 65_536;

/// Document 01's refusal numbers of moves and undos.
pub const NO_SUCH_CORNER: u64 = 5;
pub const PLACE_OUT_OF_RANGE: u64 = 6;
pub const OUT_OF_RANGE_PLAN: u64 = 12;
pub const UNDO_FULL: u64 = 13;
pub const NOTHING_TO_UNDO: u64 = 14;

/// A correction.
#[derive(Clone, Copy, Debug, PartialEq, Eq)]
pub enum Call {
    /// Puts a corner at a new place.
    Move { corner: usize, to: Point },
    /// Takes back the latest move that stands.
    Undo,
}

/// The corners that stand, and the places that undos will give back (document 01: the correction book and its pile).
pub struct Model {
    plan: Plan,
    rows: usize,
    stack: Vec<(usize, Point)>,
}

impl Model {
    /// A plan just prepared, with so many rows lent for undo records.
    pub fn new(plan: Plan, rows: usize) -> Model {
        Model::standing(plan, rows, Vec::new())
    }

    /// A plan as it stands, with the corner and the old place of each move that can be undone, the latest last.
    pub fn standing(plan: Plan, rows: usize, stack: Vec<(usize, Point)>) -> Model {
        Model { plan, rows, stack }
    }

    /// The plan as it stands.
    pub fn plan(&self) -> &Plan {
        &self.plan
    }

    /// How many moves can be undone.
    pub fn depth(&self) -> usize {
        self.stack.len()
    }

    /// Makes a correction, or says by which number it is refused.
    pub fn call(&mut self, call: Call) -> Result<(), u64> {
        if !self.plan.in_range() {
            return Err(OUT_OF_RANGE_PLAN);
        }
        match call {
            Call::Move { corner, to } => self.move_corner(corner, to),
            Call::Undo => self.undo(),
        }
    }

    fn move_corner(&mut self, corner: usize, (x, y): Point) -> Result<(), u64> {
        let Some(old) = self.place(corner) else {
            return Err(NO_SUCH_CORNER);
        };
        if !within(x, GRID_LIMIT) || !within(y, GRID_LIMIT) {
            return Err(PLACE_OUT_OF_RANGE);
        }
        if self.stack.len() >= self.rows.min(MOST_RECORDS) {
            return Err(UNDO_FULL);
        }
        self.stack.push((corner, old));
        self.put(corner, (x, y));
        Ok(())
    }

    fn undo(&mut self) -> Result<(), u64> {
        let (corner, old) = self.stack.pop().ok_or(NOTHING_TO_UNDO)?;
        self.put(corner, old);
        Ok(())
    }

    fn place(&self, corner: usize) -> Option<Point> {
        let (corners, _) = self.plan.coordinates.as_chunks::<2>();
        corners.get(corner).map(|&[x, y]| (x, y))
    }

    fn put(&mut self, corner: usize, (x, y): Point) {
        let (corners, _) = self.plan.coordinates.as_chunks_mut::<2>();
        corners[corner] = [x, y];
    }
}
