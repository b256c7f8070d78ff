//! Engines whose answers are compared with the original's: the proved one, and stand-ins that try the comparison.

use capi::prepared::Prepared;
use capi::reading::Judged;
use capi::wkt;
use plans::model::Call;
use plans::plan::Query;

/// What answers over the tables of a prepared plan.
pub trait Engine {
    /// Where a point lies, through the boxes: a place's number, or minus the refusal number.
    fn locate(&self, prepared: &Prepared, query: Query) -> i64 {
        prepared.locate(query)
    }

    /// The same ring by ring.
    fn locate_by_rings(&self, prepared: &Prepared, query: Query) -> i64 {
        prepared.locate_by_rings(query)
    }

    /// The first point, of a list x, y, x, y, .., that is not outside, or the refusal number.
    fn first_not_outside(&self, prepared: &Prepared, points: &[i64]) -> Result<Option<usize>, u64> {
        prepared.first_not_outside(points)
    }

    /// The plan of a Well-Known Text, or the number by which it is refused and its detail.
    fn read_wkt(&self, text: &[u8]) -> Judged {
        wkt::read_plan(text)
    }

    /// Makes a correction, or gives the number by which it is refused.
    fn correct(&self, prepared: &mut Prepared, call: Call) -> Result<(), u64>;
}

/// The proved engine, through its exports.
pub struct Exports;

impl Engine for Exports {
    fn correct(&self, prepared: &mut Prepared, call: Call) -> Result<(), u64> {
        prepared.correct(call)
    }
}
