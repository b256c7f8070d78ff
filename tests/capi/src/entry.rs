//! The C entry, as the static library exports it.

use plans::plan::Point;

unsafe extern "C" {
    fn findspot_locate_text(text: *const u8, length: usize, x: i64, y: i64) -> i64;
}

/// The library's answer: 0 outside, 1 inside, 2 boundary, or minus the refusal number.
pub fn locate_text(text: &[u8], (x, y): Point) -> i64 {
    // SAFETY: pointer and length are those of one slice, which outlives the call and is only read.
    unsafe { findspot_locate_text(text.as_ptr(), text.len(), x, y) }
}

/// The library's answers to several points.
pub fn answers(text: &[u8], points: &[Point]) -> Vec<i64> {
    let answer = |&point| locate_text(text, point);
    points.iter().map(answer).collect()
}
