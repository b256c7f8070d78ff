//! The library's functions over slices.

use capi::exports::{Shown, State};
use capi::prepared::Tables;
use plans::plan::{Mode, Plan, Query};
use plans::rays::Ray;

/// A table as the library takes it: where it starts, and how many entries it has.
type Start<T> = *const T;
type StartMut<T> = *mut T;

/// A box: least x, least y, greatest x, greatest y.
pub type Rect = [i64; 4];

/// The numbers of a walk's stack.
pub const STACK: usize = 18;

/// Where a walk stands.
#[repr(C)]
#[derive(Clone, Copy, Debug, PartialEq, Eq)]
pub struct Cursor {
    pub nodes: usize,
    pub waiting: usize,
    pub met: usize,
    pub at: usize,
    pub to: usize,
}

#[repr(C)]
struct Step {
    what: usize,
    edge: usize,
    cursor: Cursor,
}

/// How many nodes a build made, and how often it read a key.
#[repr(C)]
#[derive(Clone, Copy, Debug, PartialEq, Eq)]
pub struct Built {
    pub nodes: usize,
    pub reads: usize,
}

/// A number's halves, and whether it is in range as a coordinate and as a doubled one.
#[repr(C)]
#[derive(Clone, Copy, Debug, PartialEq, Eq)]
pub struct Halves {
    pub floor: i64,
    pub ceiling: i64,
    pub in_range: bool,
    pub in_doubled_range: bool,
}

/// Two numbers: the lesser, the greater, and the word of their difference with its borrow.
#[repr(C)]
#[derive(Clone, Copy, Debug, PartialEq, Eq)]
pub struct Pair {
    pub least: i64,
    pub greatest: i64,
    pub borrow: bool,
    pub word: u64,
}

/// A number in two words, and whether the word above them was borrowed from.
#[repr(C)]
#[derive(Clone, Copy, Debug, PartialEq, Eq)]
pub struct Words {
    pub borrow: bool,
    pub high: u64,
    pub low: u64,
}

/// Three points: their turn, and the segment and the box of the first two.
#[repr(C)]
#[derive(Clone, Copy, Debug, PartialEq, Eq)]
pub struct Turn {
    pub sign: i64,
    pub on_segment: bool,
    pub in_box: bool,
    pub meets: bool,
    pub holds: bool,
}

type LocateAlong = unsafe extern "C" fn(
    usize,
    State,
    Start<i64>,
    usize,
    Start<usize>,
    usize,
    Start<usize>,
    usize,
    Start<[i64; 4]>,
    usize,
    Start<[usize; 3]>,
    usize,
    Start<usize>,
    usize,
    i64,
    i64,
) -> i64;

type LocateInPlan = unsafe extern "C" fn(
    usize,
    Start<i64>,
    usize,
    Start<usize>,
    usize,
    Start<usize>,
    usize,
    i64,
    i64,
) -> i64;

unsafe extern "C" {
    fn testing_locate_along(
        ray: usize,
        state: State,
        corners: Start<i64>,
        corners_length: usize,
        rings: Start<usize>,
        rings_length: usize,
        polygons: Start<usize>,
        polygons_length: usize,
        boxes: Start<[i64; 4]>,
        boxes_length: usize,
        parts: Start<[usize; 3]>,
        parts_length: usize,
        edges: Start<usize>,
        edges_length: usize,
        x: i64,
        y: i64,
    ) -> i64;

    fn testing_locate_doubled_along(
        ray: usize,
        state: State,
        corners: Start<i64>,
        corners_length: usize,
        rings: Start<usize>,
        rings_length: usize,
        polygons: Start<usize>,
        polygons_length: usize,
        boxes: Start<[i64; 4]>,
        boxes_length: usize,
        parts: Start<[usize; 3]>,
        parts_length: usize,
        edges: Start<usize>,
        edges_length: usize,
        x: i64,
        y: i64,
    ) -> i64;

    fn testing_locate_in_plan(
        kind: usize,
        coordinates: Start<i64>,
        coordinates_length: usize,
        lengths: Start<usize>,
        lengths_length: usize,
        counts: Start<usize>,
        counts_length: usize,
        x: i64,
        y: i64,
    ) -> i64;

    fn testing_locate_doubled_in_plan(
        kind: usize,
        coordinates: Start<i64>,
        coordinates_length: usize,
        lengths: Start<usize>,
        lengths_length: usize,
        counts: Start<usize>,
        counts_length: usize,
        x: i64,
        y: i64,
    ) -> i64;

    fn testing_replay(
        kind: usize,
        coordinates: Start<i64>,
        coordinates_length: usize,
        lengths: Start<usize>,
        lengths_length: usize,
        counts: Start<usize>,
        counts_length: usize,
        corners: StartMut<i64>,
        corners_length: usize,
        rings: StartMut<usize>,
        rings_length: usize,
        polygons: StartMut<usize>,
        polygons_length: usize,
        boxes: StartMut<[i64; 4]>,
        boxes_length: usize,
        parts: StartMut<[usize; 3]>,
        parts_length: usize,
        edges: StartMut<usize>,
        edges_length: usize,
        undo: StartMut<[i64; 3]>,
        undo_length: usize,
        calls: Start<[i64; 4]>,
        calls_length: usize,
        answers: StartMut<i64>,
        answers_length: usize,
    ) -> usize;

    fn testing_start(n: usize) -> Cursor;

    fn testing_next(
        stack: StartMut<usize>,
        stack_length: usize,
        boxes: Start<[i64; 4]>,
        boxes_length: usize,
        parts: Start<[usize; 3]>,
        parts_length: usize,
        edges: Start<usize>,
        edges_length: usize,
        n: usize,
        holding: usize,
        rect: RectNumbers,
        cursor: Cursor,
    ) -> Step;

    fn testing_place_of_edge(
        corners: Start<i64>,
        corners_length: usize,
        rings: Start<usize>,
        rings_length: usize,
        boxes: Start<[i64; 4]>,
        boxes_length: usize,
        parts: Start<[usize; 3]>,
        parts_length: usize,
        edges: Start<usize>,
        edges_length: usize,
        n: usize,
        count: usize,
        e: usize,
    ) -> usize;

    fn testing_build_packed(
        corners: Start<i64>,
        corners_length: usize,
        boxes: StartMut<[i64; 4]>,
        boxes_length: usize,
        parts: StartMut<[usize; 3]>,
        parts_length: usize,
        edges: StartMut<usize>,
        edges_length: usize,
        n: usize,
    ) -> Built;

    fn testing_select(
        values: StartMut<usize>,
        values_length: usize,
        first: usize,
        size: usize,
    ) -> usize;

    fn testing_halves(z: i64) -> Halves;

    fn testing_pair(a: i64, b: i64) -> Pair;

    fn testing_product(a: i64, b: i64, c: i64, d: i64) -> Words;

    fn testing_turn(ax: i64, ay: i64, bx: i64, by: i64, cx: i64, cy: i64) -> Turn;

    fn testing_turn_words(ax: i64, ay: i64, bx: i64, by: i64, cx: i64, cy: i64) -> Words;

    fn testing_subtract(high: u64, low: u64, less_high: u64, less_low: u64) -> Words;
}

#[repr(C)]
#[derive(Clone, Copy)]
struct RectNumbers {
    least_x: i64,
    least_y: i64,
    greatest_x: i64,
    greatest_y: i64,
}

impl From<Rect> for RectNumbers {
    fn from([least_x, least_y, greatest_x, greatest_y]: Rect) -> RectNumbers {
        RectNumbers {
            least_x,
            least_y,
            greatest_x,
            greatest_y,
        }
    }
}

/// The answer through the boxes with the given ray: a place's number, or minus the refusal number.
pub fn locate_along(ray: Ray, state: State, shown: Shown, query: Query) -> i64 {
    let call: LocateAlong = match query.mode {
        Mode::Grid => testing_locate_along,
        Mode::Doubled => testing_locate_doubled_along,
    };
    // SAFETY: each pointer and length are those of one slice, which outlives the call and is only read.
    unsafe {
        call(
            ray as usize,
            state,
            shown.corners.as_ptr(),
            shown.corners.len(),
            shown.rings.as_ptr(),
            shown.rings.len(),
            shown.polygons.as_ptr(),
            shown.polygons.len(),
            shown.boxes.as_ptr(),
            shown.boxes.len(),
            shown.parts.as_ptr(),
            shown.parts.len(),
            shown.edges.as_ptr(),
            shown.edges.len(),
            query.x,
            query.y,
        )
    }
}

/// The answer ring by ring in a plan as it is handed in.
pub fn locate_in_plan(plan: &Plan, query: Query) -> i64 {
    let call: LocateInPlan = match query.mode {
        Mode::Grid => testing_locate_in_plan,
        Mode::Doubled => testing_locate_doubled_in_plan,
    };
    // SAFETY: each pointer and length are those of one slice, which outlives the call and is only read.
    unsafe {
        call(
            plan.kind as usize,
            plan.coordinates.as_ptr(),
            plan.coordinates.len(),
            plan.ring_lengths.as_ptr(),
            plan.ring_lengths.len(),
            plan.ring_counts.as_ptr(),
            plan.ring_counts.len(),
            query.x,
            query.y,
        )
    }
}

/// Prepares a plan in the tables and runs a list of calls on it: 0, or the refusal number.
pub fn replay(plan: &Plan, tables: &mut Tables, calls: &[[i64; 4]], answers: &mut [i64]) -> usize {
    // SAFETY: each pointer and length are those of one slice, which outlives the call; no two of them overlap where one is written.
    unsafe {
        testing_replay(
            plan.kind as usize,
            plan.coordinates.as_ptr(),
            plan.coordinates.len(),
            plan.ring_lengths.as_ptr(),
            plan.ring_lengths.len(),
            plan.ring_counts.as_ptr(),
            plan.ring_counts.len(),
            tables.corners.as_mut_ptr(),
            tables.corners.len(),
            tables.rings.as_mut_ptr(),
            tables.rings.len(),
            tables.polygons.as_mut_ptr(),
            tables.polygons.len(),
            tables.boxes.as_mut_ptr(),
            tables.boxes.len(),
            tables.parts.as_mut_ptr(),
            tables.parts.len(),
            tables.edges.as_mut_ptr(),
            tables.edges.len(),
            tables.undo.as_mut_ptr(),
            tables.undo.len(),
            calls.as_ptr(),
            calls.len(),
            answers.as_mut_ptr(),
            answers.len(),
        )
    }
}

/// Which boxes a walk enters.
#[derive(Clone, Copy, Debug, PartialEq, Eq)]
pub enum Search {
    /// Those that share a point with a rectangle.
    Meeting,
    /// Those that hold it.
    Holding,
}

/// The edges that come in a walk over n edges, and whether it ended (or was refused).
pub fn walk(shown: Shown, n: usize, search: Search, rect: Rect) -> (Vec<usize>, bool) {
    let mut stack = [0; STACK];
    let mut found = Vec::new();
    // SAFETY: a number alone.
    let mut cursor = unsafe { testing_start(n) };
    loop {
        // SAFETY: each pointer and length are those of one slice, which outlives the call; the stack, which is written, is apart from them.
        let step = unsafe {
            testing_next(
                stack.as_mut_ptr(),
                stack.len(),
                shown.boxes.as_ptr(),
                shown.boxes.len(),
                shown.parts.as_ptr(),
                shown.parts.len(),
                shown.edges.as_ptr(),
                shown.edges.len(),
                n,
                usize::from(search == Search::Holding),
                rect.into(),
                cursor,
            )
        };
        match step.what {
            0 => found.push(step.edge),
            1 => return (found, true),
            15 => return (found, false),
            other => panic!("no step: {other}"),
        }
        cursor = step.cursor;
    }
}

/// The place of edge e in the edge list of one ring of n corners, or none where it is refused.
pub fn place_of_edge(shown: Shown, n: usize, e: usize) -> Option<usize> {
    // SAFETY: each pointer and length are those of one slice, which outlives the call and is only read.
    let place = unsafe {
        testing_place_of_edge(
            shown.corners.as_ptr(),
            shown.corners.len(),
            shown.rings.as_ptr(),
            shown.rings.len(),
            shown.boxes.as_ptr(),
            shown.boxes.len(),
            shown.parts.as_ptr(),
            shown.parts.len(),
            shown.edges.as_ptr(),
            shown.edges.len(),
            n,
            1,
            e,
        )
    };
    (place != usize::MAX).then_some(place)
}

/// Builds the index over one ring of n corners; the packed keys of cuts along x take the place of the edge numbers.
pub fn build_packed(tables: &mut Tables, n: usize) -> Built {
    // SAFETY: each pointer and length are those of one slice, which outlives the call; no two of them overlap.
    unsafe {
        testing_build_packed(
            tables.corners.as_ptr(),
            tables.corners.len(),
            tables.boxes.as_mut_ptr(),
            tables.boxes.len(),
            tables.parts.as_mut_ptr(),
            tables.parts.len(),
            tables.edges.as_mut_ptr(),
            tables.edges.len(),
            n,
        )
    }
}

/// Cuts a part of packed keys in its middle, and gives how many were read.
pub fn select(values: &mut [usize], first: usize, size: usize) -> usize {
    // SAFETY: pointer and length are those of one slice, which outlives the call.
    unsafe { testing_select(values.as_mut_ptr(), values.len(), first, size) }
}

/// One number.
pub fn halves(z: i64) -> Halves {
    // SAFETY: a number alone.
    unsafe { testing_halves(z) }
}

/// Two numbers.
pub fn pair(a: i64, b: i64) -> Pair {
    // SAFETY: numbers alone.
    unsafe { testing_pair(a, b) }
}

/// The exact product of the differences a - b and c - d.
pub fn product([a, b]: [i64; 2], [c, d]: [i64; 2]) -> Words {
    // SAFETY: numbers alone.
    unsafe { testing_product(a, b, c, d) }
}

/// Three points.
pub fn turn([[ax, ay], [bx, by], [cx, cy]]: [[i64; 2]; 3]) -> Turn {
    // SAFETY: numbers alone.
    unsafe { testing_turn(ax, ay, bx, by, cx, cy) }
}

/// Their exact turn.
pub fn turn_words([[ax, ay], [bx, by], [cx, cy]]: [[i64; 2]; 3]) -> Words {
    // SAFETY: numbers alone.
    unsafe { testing_turn_words(ax, ay, bx, by, cx, cy) }
}

/// The exact difference of two sizes, each of a high and a low word.
pub fn subtract([high, low]: [u64; 2], [less_high, less_low]: [u64; 2]) -> Words {
    // SAFETY: numbers alone.
    unsafe { testing_subtract(high, low, less_high, less_low) }
}
