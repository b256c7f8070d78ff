//! The exports for prepared plans, as the static library has them: a state of six numbers, and tables as slices that the caller lends.

use plans::model::Call;
use plans::plan::{Mode, Plan, Point, Query};

/// The numbers that a caller keeps of a prepared plan beside its tables.
#[repr(C)]
#[derive(Clone, Copy, Debug, PartialEq, Eq)]
pub struct State {
    /// 0 a list, 1 a tree.
    pub kind: u64,
    /// 1 where a corner is out of range, else 0.
    pub out_of_range: u64,
    pub corners: u64,
    pub rings: u64,
    pub polygons: u64,
    pub undo_depth: u64,
}

/// What preparing answers: the refusal number or 0, the table that refusal 11 names or 0, the number of nodes, and the state.
#[repr(C)]
#[derive(Clone, Copy, Debug, PartialEq, Eq)]
pub struct Preparing {
    pub refusal: u64,
    pub table: u64,
    pub nodes: u64,
    pub state: State,
}

/// What a list of points is answered: the refusal number or 0, 1 where a point is not outside, and its place.
#[repr(C)]
#[derive(Clone, Copy, Debug, PartialEq, Eq)]
pub struct First {
    pub refusal: u64,
    pub found: u64,
    pub place: u64,
}

impl First {
    /// The place of the first point that is not outside, if there is one, or the refusal number.
    pub fn answer(self) -> Result<Option<usize>, u64> {
        match self {
            First {
                refusal: 0,
                found: 0,
                place: 0,
            } => Ok(None),
            First {
                refusal: 0,
                found: 1,
                place,
            } => Ok(Some(place as usize)),
            First {
                refusal,
                found: 0,
                place: 0,
            } => Err(refusal),
            other => panic!("no answer: {other:?}"),
        }
    }
}

/// What a correction is answered: the refusal number or 0, and the state, which is as it was where the correction is refused.
#[repr(C)]
#[derive(Clone, Copy, Debug, PartialEq, Eq)]
pub struct Corrected {
    pub refusal: u64,
    pub state: State,
}

/// A plan as it is handed in.
#[derive(Clone, Copy)]
pub struct Handed<'a> {
    /// 0 a list, 1 a tree; any other number is to be refused.
    pub kind: u64,
    pub coordinates: &'a [i64],
    pub lengths: &'a [usize],
    pub counts: &'a [usize],
}

impl Handed<'_> {
    /// A plan as one of its own kind.
    pub fn of(plan: &Plan) -> Handed<'_> {
        Handed {
            kind: plan.kind as u64,
            coordinates: &plan.coordinates,
            lengths: &plan.ring_lengths,
            counts: &plan.ring_counts,
        }
    }
}

/// Tables that preparing writes.
pub struct Lent<'a> {
    pub corners: &'a mut [i64],
    pub rings: &'a mut [usize],
    pub polygons: &'a mut [usize],
    pub boxes: &'a mut [[i64; 4]],
    pub parts: &'a mut [[usize; 3]],
    pub edges: &'a mut [usize],
}

/// Tables that a look-up reads.
#[derive(Clone, Copy)]
pub struct Shown<'a> {
    pub corners: &'a [i64],
    pub rings: &'a [usize],
    pub polygons: &'a [usize],
    pub boxes: &'a [[i64; 4]],
    pub parts: &'a [[usize; 3]],
    pub edges: &'a [usize],
}

/// Tables that a correction reads, and those that it writes. An undo only reads its records.
pub struct Correctable<'a> {
    pub corners: &'a mut [i64],
    pub rings: &'a [usize],
    pub boxes: &'a mut [[i64; 4]],
    pub parts: &'a [[usize; 3]],
    pub edges: &'a [usize],
    pub undo: &'a mut [[i64; 3]],
}

/// A table as the library takes it: where it starts, and how many entries it has.
type Start<T> = *const T;
type StartMut<T> = *mut T;

unsafe extern "C" {
    fn findspot_prepare(
        kind: u64,
        coordinates: Start<i64>,
        coordinates_length: usize,
        lengths: Start<usize>,
        lengths_length: usize,
        counts: Start<usize>,
        counts_length: usize,
        corners: StartMut<i64>,
        corners_length: usize,
        rings: StartMut<usize>,
        rings_length: usize,
        polygons: StartMut<usize>,
        polygons_length: usize,
        boxes: StartMut<[i64; 4]>,
        boxes_length: usize,
        parts: StartMut<[usize; 3]>,
        parts_length: usize,
        edges: StartMut<usize>,
        edges_length: usize,
    ) -> Preparing;

    fn findspot_locate(
        state: State,
        corners: Start<i64>,
        corners_length: usize,
        rings: Start<usize>,
        rings_length: usize,
        polygons: Start<usize>,
        polygons_length: usize,
        boxes: Start<[i64; 4]>,
        boxes_length: usize,
        parts: Start<[usize; 3]>,
        parts_length: usize,
        edges: Start<usize>,
        edges_length: usize,
        x: i64,
        y: i64,
    ) -> i64;

    fn findspot_locate_doubled(
        state: State,
        corners: Start<i64>,
        corners_length: usize,
        rings: Start<usize>,
        rings_length: usize,
        polygons: Start<usize>,
        polygons_length: usize,
        boxes: Start<[i64; 4]>,
        boxes_length: usize,
        parts: Start<[usize; 3]>,
        parts_length: usize,
        edges: Start<usize>,
        edges_length: usize,
        x: i64,
        y: i64,
    ) -> i64;

    fn findspot_locate_by_rings(
        state: State,
        corners: Start<i64>,
        corners_length: usize,
        rings: Start<usize>,
        rings_length: usize,
        polygons: Start<usize>,
        polygons_length: usize,
        x: i64,
        y: i64,
    ) -> i64;

    fn findspot_locate_doubled_by_rings(
        state: State,
        corners: Start<i64>,
        corners_length: usize,
        rings: Start<usize>,
        rings_length: usize,
        polygons: Start<usize>,
        polygons_length: usize,
        x: i64,
        y: i64,
    ) -> i64;

    fn findspot_first_not_outside(
        state: State,
        corners: Start<i64>,
        corners_length: usize,
        rings: Start<usize>,
        rings_length: usize,
        polygons: Start<usize>,
        polygons_length: usize,
        boxes: Start<[i64; 4]>,
        boxes_length: usize,
        parts: Start<[usize; 3]>,
        parts_length: usize,
        edges: Start<usize>,
        edges_length: usize,
        points: Start<i64>,
        points_length: usize,
    ) -> First;

    fn findspot_move(
        state: State,
        corners: StartMut<i64>,
        corners_length: usize,
        rings: Start<usize>,
        rings_length: usize,
        boxes: StartMut<[i64; 4]>,
        boxes_length: usize,
        parts: Start<[usize; 3]>,
        parts_length: usize,
        edges: Start<usize>,
        edges_length: usize,
        undo: StartMut<[i64; 3]>,
        undo_length: usize,
        corner: usize,
        x: i64,
        y: i64,
    ) -> Corrected;

    fn findspot_undo(
        state: State,
        corners: StartMut<i64>,
        corners_length: usize,
        rings: Start<usize>,
        rings_length: usize,
        boxes: StartMut<[i64; 4]>,
        boxes_length: usize,
        parts: Start<[usize; 3]>,
        parts_length: usize,
        edges: Start<usize>,
        edges_length: usize,
        undo: Start<[i64; 3]>,
        undo_length: usize,
    ) -> Corrected;
}

/// Prepares a plan in the tables that are lent.
pub fn prepare(plan: Handed, lent: Lent) -> Preparing {
    // SAFETY: each pointer and length are those of one slice, which outlives the call; no two of them overlap where one is written.
    unsafe {
        findspot_prepare(
            plan.kind,
            plan.coordinates.as_ptr(),
            plan.coordinates.len(),
            plan.lengths.as_ptr(),
            plan.lengths.len(),
            plan.counts.as_ptr(),
            plan.counts.len(),
            lent.corners.as_mut_ptr(),
            lent.corners.len(),
            lent.rings.as_mut_ptr(),
            lent.rings.len(),
            lent.polygons.as_mut_ptr(),
            lent.polygons.len(),
            lent.boxes.as_mut_ptr(),
            lent.boxes.len(),
            lent.parts.as_mut_ptr(),
            lent.parts.len(),
            lent.edges.as_mut_ptr(),
            lent.edges.len(),
        )
    }
}

/// The answer through the boxes: a place's number, or minus the refusal number.
pub fn locate(state: State, shown: Shown, query: Query) -> i64 {
    let call = match query.mode {
        Mode::Grid => findspot_locate,
        Mode::Doubled => findspot_locate_doubled,
    };
    // SAFETY: each pointer and length are those of one slice, which outlives the call and is only read.
    unsafe {
        call(
            state,
            shown.corners.as_ptr(),
            shown.corners.len(),
            shown.rings.as_ptr(),
            shown.rings.len(),
            shown.polygons.as_ptr(),
            shown.polygons.len(),
            shown.boxes.as_ptr(),
            shown.boxes.len(),
            shown.parts.as_ptr(),
            shown.parts.len(),
            shown.edges.as_ptr(),
            shown.edges.len(),
            query.x,
            query.y,
        )
    }
}

/// The answer ring by ring: a place's number, or minus the refusal number.
pub fn locate_by_rings(state: State, shown: Shown, query: Query) -> i64 {
    let call = match query.mode {
        Mode::Grid => findspot_locate_by_rings,
        Mode::Doubled => findspot_locate_doubled_by_rings,
    };
    // SAFETY: each pointer and length are those of one slice, which outlives the call and is only read.
    unsafe {
        call(
            state,
            shown.corners.as_ptr(),
            shown.corners.len(),
            shown.rings.as_ptr(),
            shown.rings.len(),
            shown.polygons.as_ptr(),
            shown.polygons.len(),
            query.x,
            query.y,
        )
    }
}

/// The first point, of a list x, y, x, y, .., that is not outside.
pub fn first_not_outside(state: State, shown: Shown, points: &[i64]) -> First {
    // SAFETY: each pointer and length are those of one slice, which outlives the call and is only read.
    unsafe {
        findspot_first_not_outside(
            state,
            shown.corners.as_ptr(),
            shown.corners.len(),
            shown.rings.as_ptr(),
            shown.rings.len(),
            shown.polygons.as_ptr(),
            shown.polygons.len(),
            shown.boxes.as_ptr(),
            shown.boxes.len(),
            shown.parts.as_ptr(),
            shown.parts.len(),
            shown.edges.as_ptr(),
            shown.edges.len(),
            points.as_ptr(),
            points.len(),
        )
    }
}

/// Puts a corner at a new place, or takes back the latest move.
pub fn correct(state: State, tables: Correctable, call: Call) -> Corrected {
    match call {
        Call::Move { corner, to } => move_corner(state, tables, corner, to),
        Call::Undo => undo(state, tables),
    }
}

fn move_corner(state: State, tables: Correctable, corner: usize, (x, y): Point) -> Corrected {
    // SAFETY: each pointer and length are those of one slice, which outlives the call; no two of them overlap where one is written.
    unsafe {
        findspot_move(
            state,
            tables.corners.as_mut_ptr(),
            tables.corners.len(),
            tables.rings.as_ptr(),
            tables.rings.len(),
            tables.boxes.as_mut_ptr(),
            tables.boxes.len(),
            tables.parts.as_ptr(),
            tables.parts.len(),
            tables.edges.as_ptr(),
            tables.edges.len(),
            tables.undo.as_mut_ptr(),
            tables.undo.len(),
            corner,
            x,
            y,
        )
    }
}

fn undo(state: State, tables: Correctable) -> Corrected {
    // SAFETY: each pointer and length are those of one slice, which outlives the call; no two of them overlap where one is written.
    unsafe {
        findspot_undo(
            state,
            tables.corners.as_mut_ptr(),
            tables.corners.len(),
            tables.rings.as_ptr(),
            tables.rings.len(),
            tables.boxes.as_mut_ptr(),
            tables.boxes.len(),
            tables.parts.as_ptr(),
            tables.parts.len(),
            tables.edges.as_ptr(),
            tables.edges.len(),
            tables.undo.as_ptr(),
            tables.undo.len(),
        )
    }
}
