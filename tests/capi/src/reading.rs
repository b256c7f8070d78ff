//! The exports for plan text, as the static library has them: a text read into tables that the caller lends, a line of a text, and N(n); and
//! what reading is to answer.

use crate::reader::{self, Refusal};
use plans::plan::Plan;

/// What reading a text answers: the refusal number or 0, the line, place or table that it names, and the plan's kind and counts.
#[repr(C)]
#[derive(Clone, Copy, Debug, Default, PartialEq, Eq)]
pub struct Reading {
    pub refusal: u64,
    pub detail: u64,
    pub kind: u64,
    pub corners: u64,
    pub rings: u64,
    pub polygons: u64,
}

/// A part of a text, in bytes.
#[repr(C)]
#[derive(Clone, Copy, Debug, PartialEq, Eq)]
pub struct Span {
    pub offset: usize,
    pub length: usize,
}

unsafe extern "C" {
    fn findspot_read_plan(
        text: *const u8,
        text_length: usize,
        corners: *mut i64,
        corners_length: usize,
        lengths: *mut usize,
        lengths_length: usize,
        counts: *mut usize,
        counts_length: usize,
    ) -> Reading;

    fn findspot_line(text: *const u8, length: usize, k: usize) -> Span;

    fn findspot_node_count(corners: usize) -> usize;
}

/// Reads the plan of a text into the tables that are lent.
pub fn read_plan(
    text: &[u8],
    corners: &mut [i64],
    lengths: &mut [usize],
    counts: &mut [usize],
) -> Reading {
    // SAFETY: each pointer and length are those of one slice, which outlives the call; no two of them overlap where one is written.
    unsafe {
        findspot_read_plan(
            text.as_ptr(),
            text.len(),
            corners.as_mut_ptr(),
            corners.len(),
            lengths.as_mut_ptr(),
            lengths.len(),
            counts.as_mut_ptr(),
            counts.len(),
        )
    }
}

/// Where line k of a text stands.
pub fn line(text: &[u8], k: usize) -> Span {
    // SAFETY: pointer and length are those of one slice, which outlives the call and is only read.
    unsafe { findspot_line(text.as_ptr(), text.len(), k) }
}

/// N(n).
pub fn node_count(corners: usize) -> usize {
    // SAFETY: it is handed one number.
    unsafe { findspot_node_count(corners) }
}

/// The numbers that tables have to have room for: the plan's coordinates, ring lengths and ring counts.
pub fn needed(plan: &Plan) -> [usize; 3] {
    [
        plan.coordinates.len(),
        plan.ring_lengths.len(),
        plan.ring_counts.len(),
    ]
}

/// What a reader finds in a text: its plan, or the number by which it is refused and the line or place that goes with it, else 0.
pub type Judged = Result<Plan, (u64, u64)>;

/// The same by item 10.
pub fn judged(text: &[u8]) -> Judged {
    reader::read(text).map_err(|refusal| match refusal {
        Refusal::TooLong => (1, 0),
        Refusal::Line(line) => (2, line as u64),
    })
}

/// What reading a text of which this is found into tables of these lengths is to answer.
pub fn due(judged: &Judged, lengths: [usize; 3]) -> Reading {
    let refused = |refusal, detail| Reading {
        refusal,
        detail,
        ..Reading::default()
    };
    let plan = match judged {
        Ok(plan) => plan,
        &Err((refusal, detail)) => return refused(refusal, detail),
    };
    for ((table, length), needed) in (1..).zip(lengths).zip(needed(plan)) {
        if length < needed {
            return refused(11, table);
        }
    }
    Reading {
        refusal: 0,
        detail: 0,
        kind: plan.kind as u64,
        corners: (plan.coordinates.len() / 2) as u64,
        rings: plan.ring_lengths.len() as u64,
        polygons: plan.ring_counts.len() as u64,
    }
}
