//! Stand-in for the original's `node` module, which only `contains` enters.

use crate::geom::Point;

/// Named by `Prepared::self_crossing`.
pub(crate) fn node_exact(_segments: &[(Point, Point)]) -> Result<(), ()> {
    unreachable!("location queries do not node segments")
}
