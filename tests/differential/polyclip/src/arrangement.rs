//! Stand-in for the original's `arrangement` module, which only `contains` enters.

use crate::geom::Point;

/// An edge handed to an arrangement.
#[expect(dead_code, reason = "written by the source, read by the real module")]
pub(crate) struct InEdge {
    pub a: Point,
    pub b: Point,
    pub tag: u64,
    pub operand: u8,
}

/// How an arrangement finds its nodes.
pub(crate) enum Noding {
    Exact,
}

/// An arrangement of edges.
pub(crate) struct Arrangement {
    pub edges: Vec<Edge>,
}

/// An edge of an arrangement.
pub(crate) struct Edge {
    pub lo: Point,
    pub hi: Point,
    pub delta: [i32; 2],
    pub open: Option<()>,
}

impl Arrangement {
    pub(crate) fn build(_edges: &[InEdge], _noding: Noding) -> Result<Arrangement, ()> {
        unreachable!("location queries build no arrangement")
    }

    pub(crate) fn sides(&self, _edge: usize) -> ([i32; 2], [i32; 2]) {
        unreachable!("location queries build no arrangement")
    }
}
