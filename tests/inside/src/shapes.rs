//! Plans that are walked, built and looked up in.

use plans::plan::{Plan, Point, Ring};

/// How the corners of one ring lie.
#[derive(Clone, Copy, Debug, PartialEq, Eq)]
pub enum Spread {
    Line,
    Zigzag,
    /// Remainders of multiples, which seem to have no order.
    Scattered,
    Same,
}

pub const SPREADS: [Spread; 4] = [
    Spread::Line,
    Spread::Zigzag,
    Spread::Scattered,
    Spread::Same,
];

impl Spread {
    fn corner(self, i: i64) -> Point {
        match self {
            Spread::Line => (i, 0),
            Spread::Zigzag => (i, i % 2 * 1000),
            Spread::Scattered => (i % 1009 * 577 % 1009, i % 1013 * 389 % 1013),
            Spread::Same => (5, 5),
        }
    }

    /// A plan of one ring of n corners.
    pub fn plan(self, n: usize) -> Plan {
        let ring = (0..n as i64).map(|i| self.corner(i)).collect();
        Plan::tree(&[ring])
    }
}

/// How the keys by which edges are cut are spread: the sums of two neighbours' x, on a line.
#[derive(Clone, Copy, Debug, PartialEq, Eq)]
pub enum Family {
    Equal,
    /// Two values by turns, in a pattern of three corners.
    TwoValued,
    Sorted,
    /// Rising to the middle and falling after it.
    OrganPipe,
    /// The least and the greatest coordinate in range, two corners each.
    Extreme,
    /// The powers of two, one after another.
    Doubling,
}

impl Family {
    /// The x of corner i of n.
    pub fn x(self, i: usize, n: usize) -> i64 {
        match self {
            Family::Equal => 7,
            Family::TwoValued => i64::from(i % 3 == 1),
            Family::Sorted => i as i64,
            Family::OrganPipe => i.min(n - i) as i64,
            Family::Extreme if i % 4 < 2 => -(1 << 40),
            Family::Extreme => 1 << 40,
            Family::Doubling => 1 << (i % 41),
        }
    }
}

fn rectangle(left: i64, low: i64, right: i64, high: i64) -> Ring {
    vec![(left, low), (right, low), (right, high), (left, high)]
}

/// Rectangles with a hole each, 40 to a row, that overlap their neighbours by a strip of width 1: outer ring and hole by turns.
pub fn grid(count: usize) -> Vec<Ring> {
    let cell = |k: i64| {
        let (x, y) = (k % 40 * 5 + 3, k / 40 * 7 + 3);
        let outer = rectangle(x, y, x + 6, y + 8);
        [outer, rectangle(x + 2, y + 2, x + 4, y + 6)]
    };
    (0..count as i64 / 2).flat_map(cell).collect()
}

/// Rings inside each other, none of which is a point.
pub fn nested(count: usize) -> Vec<Ring> {
    let count = count as i64;
    let ring = |k| rectangle(2 * k, 3 * k, 4 * count - 2 * k, 6 * count - 3 * k);
    (0..count).map(ring).collect()
}

/// 300 squares, 20 to a row, that overlap their neighbours by a strip of width 1.
pub fn squares() -> Vec<Ring> {
    let square = |k: i64| {
        let (x, y) = (k % 20 * 5 + 20, k / 20 * 5 + 20);
        rectangle(x, y, x + 6, y + 6)
    };
    (0..300).map(square).collect()
}

/// A list of polygons of so many rings each.
pub fn listed(rings: &[Ring], each: usize) -> Plan {
    Plan::list(&rings.chunks(each).map(<[Ring]>::to_vec).collect::<Vec<_>>())
}
