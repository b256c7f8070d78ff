//! The calls of the static library `capi` (include/findspot.h), and all of this crate's `unsafe` code.
//!
//! Of its caller the library asks only that each pointer and length are those of one list, that a list that is written overlaps no
//! other, and that nobody writes them meanwhile. Slices are just that: an empty one has a pointer that is not null and is not read.
//! What the lists hold is free: the library tests every number that it takes from them.

#![allow(unsafe_code)]

use crate::plan::Kind;
use crate::point::Point;

/// The numbers that go with the tables of a prepared plan.
#[repr(C)]
#[derive(Clone, Copy, Debug, Default, PartialEq, Eq)]
pub(crate) struct State {
    /// 0 a list, 1 a tree.
    pub kind: usize,
    /// 1 where a corner is out of range, else 0.
    pub out_of_range: usize,
    pub corners: usize,
    pub rings: usize,
    pub polygons: usize,
    pub undo_depth: usize,
}

/// What preparing answers: the refusal number or 0, the table that refusal 11 names or 0, the number of nodes, and the state.
#[repr(C)]
pub(crate) struct Preparing {
    pub refusal: usize,
    pub table: usize,
    pub nodes: usize,
    pub state: State,
}

/// What a list of points is answered: the refusal number or 0, 1 where a point is not outside, and the place of the first.
#[repr(C)]
pub(crate) struct First {
    pub refusal: usize,
    pub found: usize,
    pub place: usize,
}

/// What a correction answers: the refusal number or 0, and the state from then on.
#[repr(C)]
pub(crate) struct Correction {
    pub refusal: usize,
    pub state: State,
}

/// What reading a text answers: the refusal number or 0, the line that refusal 2, the table that refusal 11 or the place that refusal 21 names, and
/// the plan's kind and size.
#[repr(C)]
pub(crate) struct Reading {
    pub refusal: usize,
    pub detail: usize,
    /// 0 a list, 1 a tree.
    pub kind: usize,
    pub corners: usize,
    pub rings: usize,
    pub polygons: usize,
}

/// What reading Well-Known Text answers: a [`Reading`] without the kind, which is always a list.
#[repr(C)]
struct WktReading {
    refusal: usize,
    detail: usize,
    corners: usize,
    rings: usize,
    polygons: usize,
}

/// What writing Well-Known Text answers: the refusal number or 0, the table that refusal 11 names or 0, and the number of bytes written.
#[repr(C)]
pub(crate) struct WktWriting {
    pub refusal: usize,
    pub table: usize,
    pub length: usize,
}

/// A part of a text, in bytes.
#[repr(C)]
pub(crate) struct Span {
    pub offset: usize,
    pub length: usize,
}

// The library's numbers have 64 bits, and its structs are such numbers side by side.
const _: () = {
    assert!(size_of::<usize>() == 8);
    assert!(size_of::<Point>() == 2 * 8);
    assert!(size_of::<State>() == 6 * 8);
    assert!(size_of::<Preparing>() == 9 * 8);
    assert!(size_of::<First>() == 3 * 8);
    assert!(size_of::<Correction>() == 7 * 8);
    assert!(size_of::<Reading>() == 6 * 8);
    assert!(size_of::<WktReading>() == 5 * 8);
    assert!(size_of::<WktWriting>() == 3 * 8);
    assert!(size_of::<Span>() == 2 * 8);
};

/// The tables that are lent.
#[derive(Clone, Debug, PartialEq, Eq)]
pub(crate) struct Tables {
    pub corners: Vec<Point>,
    /// Where each ring ends.
    pub rings: Vec<usize>,
    /// Where the rings of each polygon end.
    pub polygons: Vec<usize>,
    /// Least x, least y, greatest x, greatest y.
    pub boxes: Vec<[i64; 4]>,
    /// First place, number of places, place of the left child.
    pub parts: Vec<[usize; 3]>,
    pub edges: Vec<usize>,
}

type LookUp = unsafe extern "C" fn(
    state: State,
    corners: *const i64,
    corners_length: usize,
    rings: *const usize,
    rings_length: usize,
    polygons: *const usize,
    polygons_length: usize,
    boxes: *const [i64; 4],
    boxes_length: usize,
    parts: *const [usize; 3],
    parts_length: usize,
    edges: *const usize,
    edges_length: usize,
    x: i64,
    y: i64,
) -> i64;

type LookUpByRings = unsafe extern "C" fn(
    state: State,
    corners: *const i64,
    corners_length: usize,
    rings: *const usize,
    rings_length: usize,
    polygons: *const usize,
    polygons_length: usize,
    x: i64,
    y: i64,
) -> i64;

unsafe extern "C" {
    fn findspot_locate_text(text: *const u8, length: usize, x: i64, y: i64) -> i64;

    fn findspot_read_plan(
        text: *const u8,
        text_length: usize,
        corners: *mut i64,
        corners_length: usize,
        lengths: *mut usize,
        lengths_length: usize,
        counts: *mut usize,
        counts_length: usize,
    ) -> Reading;

    fn findspot_read_wkt(
        text: *const u8,
        text_length: usize,
        corners: *mut i64,
        corners_length: usize,
        lengths: *mut usize,
        lengths_length: usize,
        counts: *mut usize,
        counts_length: usize,
    ) -> WktReading;

    fn findspot_write_wkt(
        kind: usize,
        coordinates: *const i64,
        coordinates_length: usize,
        lengths: *const usize,
        lengths_length: usize,
        counts: *const usize,
        counts_length: usize,
        output: *mut u8,
        output_length: usize,
    ) -> WktWriting;

    fn findspot_line(text: *const u8, length: usize, k: usize) -> Span;

    fn findspot_node_count(corners: usize) -> usize;

    fn findspot_prepare(
        kind: usize,
        coordinates: *const i64,
        coordinates_length: usize,
        lengths: *const usize,
        lengths_length: usize,
        counts: *const usize,
        counts_length: usize,
        corners: *mut i64,
        corners_length: usize,
        rings: *mut usize,
        rings_length: usize,
        polygons: *mut usize,
        polygons_length: usize,
        boxes: *mut [i64; 4],
        boxes_length: usize,
        parts: *mut [usize; 3],
        parts_length: usize,
        edges: *mut usize,
        edges_length: usize,
    ) -> Preparing;

    fn findspot_locate(
        state: State,
        corners: *const i64,
        corners_length: usize,
        rings: *const usize,
        rings_length: usize,
        polygons: *const usize,
        polygons_length: usize,
        boxes: *const [i64; 4],
        boxes_length: usize,
        parts: *const [usize; 3],
        parts_length: usize,
        edges: *const usize,
        edges_length: usize,
        x: i64,
        y: i64,
    ) -> i64;

    fn findspot_locate_doubled(
        state: State,
        corners: *const i64,
        corners_length: usize,
        rings: *const usize,
        rings_length: usize,
        polygons: *const usize,
        polygons_length: usize,
        boxes: *const [i64; 4],
        boxes_length: usize,
        parts: *const [usize; 3],
        parts_length: usize,
        edges: *const usize,
        edges_length: usize,
        x: i64,
        y: i64,
    ) -> i64;

    fn findspot_locate_by_rings(
        state: State,
        corners: *const i64,
        corners_length: usize,
        rings: *const usize,
        rings_length: usize,
        polygons: *const usize,
        polygons_length: usize,
        x: i64,
        y: i64,
    ) -> i64;

    fn findspot_locate_doubled_by_rings(
        state: State,
        corners: *const i64,
        corners_length: usize,
        rings: *const usize,
        rings_length: usize,
        polygons: *const usize,
        polygons_length: usize,
        x: i64,
        y: i64,
    ) -> i64;

    fn findspot_first_not_outside(
        state: State,
        corners: *const i64,
        corners_length: usize,
        rings: *const usize,
        rings_length: usize,
        polygons: *const usize,
        polygons_length: usize,
        boxes: *const [i64; 4],
        boxes_length: usize,
        parts: *const [usize; 3],
        parts_length: usize,
        edges: *const usize,
        edges_length: usize,
        points: *const i64,
        points_length: usize,
    ) -> First;

    fn findspot_move(
        state: State,
        corners: *mut i64,
        corners_length: usize,
        rings: *const usize,
        rings_length: usize,
        boxes: *mut [i64; 4],
        boxes_length: usize,
        parts: *const [usize; 3],
        parts_length: usize,
        edges: *const usize,
        edges_length: usize,
        undo: *mut [i64; 3],
        undo_length: usize,
        corner: usize,
        x: i64,
        y: i64,
    ) -> Correction;

    fn findspot_undo(
        state: State,
        corners: *mut i64,
        corners_length: usize,
        rings: *const usize,
        rings_length: usize,
        boxes: *mut [i64; 4],
        boxes_length: usize,
        parts: *const [usize; 3],
        parts_length: usize,
        edges: *const usize,
        edges_length: usize,
        undo: *const [i64; 3],
        undo_length: usize,
    ) -> Correction;
}

/// How many coordinates points have. A list of points of 16 bytes is never so long that this would overflow.
fn coordinates_of(points: &[Point]) -> usize {
    points.len().checked_mul(2).expect("a slice is shorter")
}

/// A list that is written, as the library takes it: where it begins and its length. Both are taken here, at once, since no reference to the list
/// may be made while the pointer to write it is held.
fn lent<T>(list: &mut [T]) -> (*mut T, usize) {
    let length = list.len();
    (list.as_mut_ptr(), length)
}

/// The same of points. A point is two numbers x, y by its fixed layout, so a list of points is one of twice as many numbers.
fn lent_points(points: &mut [Point]) -> (*mut i64, usize) {
    let coordinates = coordinates_of(points);
    (points.as_mut_ptr().cast(), coordinates)
}

/// The answer to a point asked of a text: a place's number, or minus the refusal number.
pub(crate) fn locate_text(text: &[u8], point: Point) -> i64 {
    // SAFETY: pointer and length are those of one slice, which outlives the call and is only read.
    unsafe { findspot_locate_text(text.as_ptr(), text.len(), point.x, point.y) }
}

/// Reads the plan of a text into these tables. Refused, it leaves them as they were.
pub(crate) fn read_plan(
    text: &[u8],
    corners: &mut [Point],
    lengths: &mut [usize],
    counts: &mut [usize],
) -> Reading {
    let (corners, corners_length) = lent_points(corners);
    let (lengths, lengths_length) = lent(lengths);
    let (counts, counts_length) = lent(counts);
    // SAFETY: each pointer and length are those of one list, which outlives the call. The lists that are written are borrowed for it alone.
    unsafe {
        findspot_read_plan(
            text.as_ptr(),
            text.len(),
            corners,
            corners_length,
            lengths,
            lengths_length,
            counts,
            counts_length,
        )
    }
}

/// The same of a Well-Known Text.
pub(crate) fn read_wkt(
    text: &[u8],
    corners: &mut [Point],
    lengths: &mut [usize],
    counts: &mut [usize],
) -> Reading {
    let (corners, corners_length) = lent_points(corners);
    let (lengths, lengths_length) = lent(lengths);
    let (counts, counts_length) = lent(counts);
    // SAFETY: as `read_plan`.
    let reading = unsafe {
        findspot_read_wkt(
            text.as_ptr(),
            text.len(),
            corners,
            corners_length,
            lengths,
            lengths_length,
            counts,
            counts_length,
        )
    };
    Reading {
        refusal: reading.refusal,
        detail: reading.detail,
        kind: Kind::List.number(),
        corners: reading.corners,
        rings: reading.rings,
        polygons: reading.polygons,
    }
}

/// Writes a plan into the output as Well-Known Text. Refused, it leaves the output as it was.
pub(crate) fn write_wkt(
    kind: usize,
    corners: &[Point],
    lengths: &[usize],
    counts: &[usize],
    output: &mut [u8],
) -> WktWriting {
    let (output, output_length) = lent(output);
    // SAFETY: each pointer and length are those of one list, which outlives the call. The output, which is written, is borrowed for it alone.
    unsafe {
        findspot_write_wkt(
            kind,
            corners.as_ptr().cast(),
            coordinates_of(corners),
            lengths.as_ptr(),
            lengths.len(),
            counts.as_ptr(),
            counts.len(),
            output,
            output_length,
        )
    }
}

/// Where a line of a text, counted from 1, stands in it; an empty part where there is no such line.
pub(crate) fn line(text: &[u8], number: usize) -> Span {
    // SAFETY: pointer and length are those of one slice, which outlives the call and is only read.
    unsafe { findspot_line(text.as_ptr(), text.len(), number) }
}

/// N(n), the number of nodes over n corners.
pub(crate) fn node_count(corners: usize) -> usize {
    // SAFETY: it is handed one number and touches no memory of the caller.
    unsafe { findspot_node_count(corners) }
}

impl Tables {
    /// Prepares a plan in these tables. Refused, it leaves them as they were.
    pub(crate) fn prepare(
        &mut self,
        kind: usize,
        corners: &[Point],
        lengths: &[usize],
        counts: &[usize],
    ) -> Preparing {
        let (corners_lent, corners_length) = lent_points(&mut self.corners);
        let (rings, rings_length) = lent(&mut self.rings);
        let (polygons, polygons_length) = lent(&mut self.polygons);
        let (boxes, boxes_length) = lent(&mut self.boxes);
        let (parts, parts_length) = lent(&mut self.parts);
        let (edges, edges_length) = lent(&mut self.edges);
        // SAFETY: each pointer and length are those of one list, which outlives the call. The lists that are written are borrowed for it alone.
        unsafe {
            findspot_prepare(
                kind,
                corners.as_ptr().cast(),
                coordinates_of(corners),
                lengths.as_ptr(),
                lengths.len(),
                counts.as_ptr(),
                counts.len(),
                corners_lent,
                corners_length,
                rings,
                rings_length,
                polygons,
                polygons_length,
                boxes,
                boxes_length,
                parts,
                parts_length,
                edges,
                edges_length,
            )
        }
    }

    /// The answer through the boxes: a place's number, or minus the refusal number.
    pub(crate) fn locate(&self, state: State, point: Point) -> i64 {
        self.look_up(findspot_locate, state, point)
    }

    /// The same for a doubled point, on the half-grid.
    pub(crate) fn locate_doubled(&self, state: State, doubled: Point) -> i64 {
        self.look_up(findspot_locate_doubled, state, doubled)
    }

    /// The answer ring by ring.
    pub(crate) fn locate_by_rings(&self, state: State, point: Point) -> i64 {
        self.look_up_by_rings(findspot_locate_by_rings, state, point)
    }

    /// The same for a doubled point, on the half-grid.
    pub(crate) fn locate_doubled_by_rings(&self, state: State, doubled: Point) -> i64 {
        self.look_up_by_rings(findspot_locate_doubled_by_rings, state, doubled)
    }

    #[inline]
    fn look_up(&self, call: LookUp, state: State, point: Point) -> i64 {
        // SAFETY: each pointer and length are those of one list, which outlives the call and is only read; `call` is one of the library's two.
        unsafe {
            call(
                state,
                self.corners.as_ptr().cast(),
                coordinates_of(&self.corners),
                self.rings.as_ptr(),
                self.rings.len(),
                self.polygons.as_ptr(),
                self.polygons.len(),
                self.boxes.as_ptr(),
                self.boxes.len(),
                self.parts.as_ptr(),
                self.parts.len(),
                self.edges.as_ptr(),
                self.edges.len(),
                point.x,
                point.y,
            )
        }
    }

    #[inline]
    fn look_up_by_rings(&self, call: LookUpByRings, state: State, point: Point) -> i64 {
        // SAFETY: as `look_up`.
        unsafe {
            call(
                state,
                self.corners.as_ptr().cast(),
                coordinates_of(&self.corners),
                self.rings.as_ptr(),
                self.rings.len(),
                self.polygons.as_ptr(),
                self.polygons.len(),
                point.x,
                point.y,
            )
        }
    }

    /// The first of the points that is not outside.
    pub(crate) fn first_not_outside(&self, state: State, points: &[Point]) -> First {
        // SAFETY: each pointer and length are those of one list, which outlives the call and is only read; points are numbers by their layout.
        unsafe {
            findspot_first_not_outside(
                state,
                self.corners.as_ptr().cast(),
                coordinates_of(&self.corners),
                self.rings.as_ptr(),
                self.rings.len(),
                self.polygons.as_ptr(),
                self.polygons.len(),
                self.boxes.as_ptr(),
                self.boxes.len(),
                self.parts.as_ptr(),
                self.parts.len(),
                self.edges.as_ptr(),
                self.edges.len(),
                points.as_ptr().cast(),
                coordinates_of(points),
            )
        }
    }

    /// Moves a corner and records its old place. Refused, it leaves all as it was.
    pub(crate) fn move_corner(
        &mut self,
        state: State,
        undo: &mut [[i64; 3]],
        corner: usize,
        place: Point,
    ) -> Correction {
        let (corners, corners_length) = lent_points(&mut self.corners);
        let (boxes, boxes_length) = lent(&mut self.boxes);
        let (undo, undo_length) = lent(undo);
        // SAFETY: each pointer and length are those of one list, which outlives the call. Those that are written are borrowed for it alone.
        unsafe {
            findspot_move(
                state,
                corners,
                corners_length,
                self.rings.as_ptr(),
                self.rings.len(),
                boxes,
                boxes_length,
                self.parts.as_ptr(),
                self.parts.len(),
                self.edges.as_ptr(),
                self.edges.len(),
                undo,
                undo_length,
                corner,
                place.x,
                place.y,
            )
        }
    }

    /// Takes the latest move back. Refused, it leaves all as it was.
    pub(crate) fn undo(&mut self, state: State, undo: &[[i64; 3]]) -> Correction {
        let (corners, corners_length) = lent_points(&mut self.corners);
        let (boxes, boxes_length) = lent(&mut self.boxes);
        // SAFETY: as `move_corner`; the undo table is only read.
        unsafe {
            findspot_undo(
                state,
                corners,
                corners_length,
                self.rings.as_ptr(),
                self.rings.len(),
                boxes,
                boxes_length,
                self.parts.as_ptr(),
                self.parts.len(),
                self.edges.as_ptr(),
                self.edges.len(),
                undo.as_ptr(),
                undo.len(),
            )
        }
    }
}
