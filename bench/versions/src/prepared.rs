//! A plan that one version prepares, and the calls that read and write its tables.

use crate::exports::{Correction, Exports, LookUp, LookUpByRings, Preparing, State};
use plans::plan::Plan;
use shapes::Corner;

/// The state and the tables of a prepared plan, with room for one move to be undone.
#[derive(Clone)]
pub struct Prepared {
    state: State,
    corners: Vec<i64>,
    rings: Vec<usize>,
    polygons: Vec<usize>,
    boxes: Vec<[i64; 4]>,
    parts: Vec<[usize; 3]>,
    edges: Vec<usize>,
    undo: Vec<[i64; 3]>,
}

impl Prepared {
    /// Tables as long as a plan needs them. Nothing is prepared in them yet.
    pub fn room(exports: &Exports, plan: &Plan) -> Prepared {
        let corners = plan.coordinates.len() / 2;
        // SAFETY: it is handed one number and touches no memory of the caller.
        let nodes = unsafe { (exports.findspot_node_count)(corners) };
        Prepared {
            state: State::default(),
            corners: vec![0; 2 * corners],
            rings: vec![0; plan.ring_lengths.len()],
            polygons: vec![0; plan.ring_counts.len()],
            boxes: vec![[0; 4]; nodes],
            parts: vec![[0; 3]; nodes],
            edges: vec![0; corners],
            undo: vec![[0; 3]; 1],
        }
    }

    /// Takes over another's state and tables, of the same lengths, and keeps its own place in memory.
    pub fn copy(&mut self, other: &Prepared) {
        self.state = other.state;
        self.corners.copy_from_slice(&other.corners);
        self.rings.copy_from_slice(&other.rings);
        self.polygons.copy_from_slice(&other.polygons);
        self.boxes.copy_from_slice(&other.boxes);
        self.parts.copy_from_slice(&other.parts);
        self.edges.copy_from_slice(&other.edges);
        self.undo.copy_from_slice(&other.undo);
    }

    /// All corners as they now stand, x, y, x, y, ..
    pub fn corners(&self) -> &[i64] {
        &self.corners
    }

    /// Prepares a plan.
    pub fn prepare(&mut self, exports: &Exports, plan: &Plan) -> Preparing {
        // SAFETY: each pointer and length are those of one list, which outlives the call. The lists that are written are borrowed for it alone.
        let preparing = unsafe {
            (exports.findspot_prepare)(
                plan.kind as usize,
                plan.coordinates.as_ptr(),
                plan.coordinates.len(),
                plan.ring_lengths.as_ptr(),
                plan.ring_lengths.len(),
                plan.ring_counts.as_ptr(),
                plan.ring_counts.len(),
                self.corners.as_mut_ptr(),
                self.corners.len(),
                self.rings.as_mut_ptr(),
                self.rings.len(),
                self.polygons.as_mut_ptr(),
                self.polygons.len(),
                self.boxes.as_mut_ptr(),
                self.boxes.len(),
                self.parts.as_mut_ptr(),
                self.parts.len(),
                self.edges.as_mut_ptr(),
                self.edges.len(),
            )
        };
        self.state = preparing.state;
        preparing
    }

    /// Where a point lies, by one of the calls that go through the boxes.
    pub fn look_up(&self, call: LookUp, (x, y): Corner) -> i64 {
        // SAFETY: each pointer and length are those of one list, which outlives the call and is only read.
        unsafe {
            call(
                self.state,
                self.corners.as_ptr(),
                self.corners.len(),
                self.rings.as_ptr(),
                self.rings.len(),
                self.polygons.as_ptr(),
                self.polygons.len(),
                self.boxes.as_ptr(),
                self.boxes.len(),
                self.parts.as_ptr(),
                self.parts.len(),
                self.edges.as_ptr(),
                self.edges.len(),
                x,
                y,
            )
        }
    }

    /// Where a point lies, by one of the calls that go ring by ring.
    pub fn look_up_by_rings(&self, call: LookUpByRings, (x, y): Corner) -> i64 {
        // SAFETY: as `look_up`.
        unsafe {
            call(
                self.state,
                self.corners.as_ptr(),
                self.corners.len(),
                self.rings.as_ptr(),
                self.rings.len(),
                self.polygons.as_ptr(),
                self.polygons.len(),
                x,
                y,
            )
        }
    }

    /// Moves a corner and records its old place.
    pub fn move_corner(&mut self, exports: &Exports, corner: usize, (x, y): Corner) -> Correction {
        // SAFETY: each pointer and length are those of one list, which outlives the call. Those that are written are borrowed for it alone.
        let correction = unsafe {
            (exports.findspot_move)(
                self.state,
                self.corners.as_mut_ptr(),
                self.corners.len(),
                self.rings.as_ptr(),
                self.rings.len(),
                self.boxes.as_mut_ptr(),
                self.boxes.len(),
                self.parts.as_ptr(),
                self.parts.len(),
                self.edges.as_ptr(),
                self.edges.len(),
                self.undo.as_mut_ptr(),
                self.undo.len(),
                corner,
                x,
                y,
            )
        };
        self.state = correction.state;
        correction
    }

    /// Takes the move back.
    pub fn undo(&mut self, exports: &Exports) -> Correction {
        // SAFETY: as `move_corner`; the undo table is only read.
        let correction = unsafe {
            (exports.findspot_undo)(
                self.state,
                self.corners.as_mut_ptr(),
                self.corners.len(),
                self.rings.as_ptr(),
                self.rings.len(),
                self.boxes.as_mut_ptr(),
                self.boxes.len(),
                self.parts.as_ptr(),
                self.parts.len(),
                self.edges.as_ptr(),
                self.edges.len(),
                self.undo.as_ptr(),
                self.undo.len(),
            )
        };
        self.state = correction.state;
        correction
    }
}
