//! The exports for Well-Known Text (document 02, R-1), as the static library has them, and what they are to answer: by a [`reader`] and a
//! [`writer`] that are written from R-1 alone.

use crate::due::plan_refusal;
use crate::exports::Handed;
use crate::reader::LONGEST;
use crate::reading::{Judged, Reading};
use plans::plan::{Kind, Plan};

pub mod damage;
pub mod reader;
pub mod trials;
pub mod writer;

/// What reading answers: the refusal number or 0, the place or table that it names, and the plan's counts.
#[repr(C)]
struct ReadingOfList {
    refusal: u64,
    detail: u64,
    corners: u64,
    rings: u64,
    polygons: u64,
}

/// What writing answers: the refusal number or 0, the table that refusal 11 names or 0, and the bytes that are written.
#[repr(C)]
#[derive(Clone, Copy, Debug, PartialEq, Eq)]
pub struct Writing {
    pub refusal: u64,
    pub table: u64,
    pub length: u64,
}

unsafe extern "C" {
    fn findspot_read_wkt(
        text: *const u8,
        text_length: usize,
        corners: *mut i64,
        corners_length: usize,
        lengths: *mut usize,
        lengths_length: usize,
        counts: *mut usize,
        counts_length: usize,
    ) -> ReadingOfList;

    fn findspot_write_wkt(
        kind: u64,
        coordinates: *const i64,
        coordinates_length: usize,
        lengths: *const usize,
        lengths_length: usize,
        counts: *const usize,
        counts_length: usize,
        output: *mut u8,
        output_length: usize,
    ) -> Writing;
}

/// Reads the plan of a text, which is a list, into the tables that are lent.
pub fn read_wkt(
    text: &[u8],
    corners: &mut [i64],
    lengths: &mut [usize],
    counts: &mut [usize],
) -> Reading {
    // SAFETY: each pointer and length are those of one slice, which outlives the call; no two of them overlap where one is written.
    let answer = unsafe {
        findspot_read_wkt(
            text.as_ptr(),
            text.len(),
            corners.as_mut_ptr(),
            corners.len(),
            lengths.as_mut_ptr(),
            lengths.len(),
            counts.as_mut_ptr(),
            counts.len(),
        )
    };
    Reading {
        refusal: answer.refusal,
        detail: answer.detail,
        kind: Kind::List as u64,
        corners: answer.corners,
        rings: answer.rings,
        polygons: answer.polygons,
    }
}

/// The plan of a text as the library reads it, or the refusal number and its detail. No text has more numbers than bytes.
pub fn read_plan(text: &[u8]) -> Judged {
    let room = text.len();
    let (mut corners, mut lengths, mut counts) = (vec![0; room], vec![0; room], vec![0; room]);
    let answer = read_wkt(text, &mut corners, &mut lengths, &mut counts);
    if answer.refusal > 0 {
        return Err((answer.refusal, answer.detail));
    }
    corners.truncate(2 * answer.corners as usize);
    lengths.truncate(answer.rings as usize);
    counts.truncate(answer.polygons as usize);
    Ok(Plan {
        kind: Kind::List,
        coordinates: corners,
        ring_lengths: lengths,
        ring_counts: counts,
    })
}

/// Writes a plan to the output that is lent.
pub fn write_wkt(plan: Handed, output: &mut [u8]) -> Writing {
    // SAFETY: each pointer and length are those of one slice, which outlives the call; no two of them overlap where one is written.
    unsafe {
        findspot_write_wkt(
            plan.kind,
            plan.coordinates.as_ptr(),
            plan.coordinates.len(),
            plan.lengths.as_ptr(),
            plan.lengths.len(),
            plan.counts.as_ptr(),
            plan.counts.len(),
            output.as_mut_ptr(),
            output.len(),
        )
    }
}

/// What is found in a text by R-1.
pub fn judged(text: &[u8]) -> Judged {
    reader::read(text).map_err(numbers)
}

/// A refusal's number, and the place that it names or 0.
pub fn numbers(refusal: reader::Refusal) -> (u64, u64) {
    match refusal {
        reader::Refusal::TooLong => (1, 0),
        reader::Refusal::OffGrammar(place) => (21, place as u64),
        reader::Refusal::Unclosed => (22, 0),
    }
}

/// The text that is to be written of a plan of this kind to an output of this length, or the refusal number and its table or 0.
pub fn due_writing(kind: u64, plan: &Plan, room: usize) -> Result<Vec<u8>, (u64, u64)> {
    let list = kind == Kind::List as u64;
    match plan_refusal(list, plan) {
        0 if kind > Kind::Tree as u64 => return Err((15, 0)),
        0 if !list || plan.ring_lengths.contains(&0) => return Err((22, 0)),
        0 => {}
        refusal => return Err((refusal, 0)),
    }
    // A corner is four bytes at least: nothing is gained by writing millions of them.
    if plan.coordinates.len() / 2 > LONGEST / 4 {
        return Err((1, 0));
    }
    let text = writer::write(plan);
    if text.len() > LONGEST {
        Err((1, 0))
    } else if text.len() > room {
        Err((11, 6))
    } else {
        Ok(text)
    }
}
