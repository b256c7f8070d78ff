//! Points of the grid and of the half-grid.

/// The largest coordinate in range, either side of zero: 2^40.
pub const MAX_COORD: i64 = 1 << 40;

/// The largest doubled coordinate in range, either side of zero: 2^41.
pub const MAX_DOUBLED: i64 = 1 << 41;

/// A point of the grid or, doubled, of the half-grid.
// The library is lent lists of points as lists of numbers x, y, x, y, ..: the layout is fixed.
#[repr(C)]
#[derive(Clone, Copy, Debug, Default, PartialEq, Eq, PartialOrd, Ord, Hash)]
pub struct Point {
    /// To the right.
    pub x: i64,
    /// Upwards.
    pub y: i64,
}

impl Point {
    /// The point with these coordinates.
    pub const fn new(x: i64, y: i64) -> Point {
        Point { x, y }
    }

    /// Whether both coordinates lie within ±[`MAX_COORD`].
    pub const fn in_range(self) -> bool {
        within(self.x, MAX_COORD) && within(self.y, MAX_COORD)
    }

    /// Whether both coordinates of a doubled point lie within ±[`MAX_DOUBLED`].
    pub const fn in_doubled_range(self) -> bool {
        within(self.x, MAX_DOUBLED) && within(self.y, MAX_DOUBLED)
    }
}

impl From<(i64, i64)> for Point {
    fn from((x, y): (i64, i64)) -> Point {
        Point { x, y }
    }
}

const fn within(coordinate: i64, limit: i64) -> bool {
    -limit <= coordinate && coordinate <= limit
}
