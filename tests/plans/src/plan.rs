//! A plan as it is handed in, and the points that are asked of it.

/// The largest coordinate in range.
pub const GRID_LIMIT: i64 = 1 << 40;

/// The largest coordinate in range of a doubled point.
pub const DOUBLED_LIMIT: i64 = 1 << 41;

/// A point, or a corner.
pub type Point = (i64, i64);

/// The corners of a closed ring, the first one not repeated.
pub type Ring = Vec<Point>;

/// The rings of a polygon, the outer one first.
pub type Polygon = Vec<Ring>;

/// How the rings of a plan bound its region.
#[derive(Clone, Copy, Debug, PartialEq, Eq)]
pub enum Kind {
    /// A list of polygons.
    List = 0,
    /// A tree of rings, given as the plain list of them.
    Tree = 1,
}

/// A plan: a kind and three tables.
#[derive(Clone, Debug, PartialEq, Eq)]
pub struct Plan {
    pub kind: Kind,
    /// x, y, x, y, .. of the corners.
    pub coordinates: Vec<i64>,
    /// The number of corners of each ring.
    pub ring_lengths: Vec<usize>,
    /// The number of rings of each polygon; empty for a tree.
    pub ring_counts: Vec<usize>,
}

impl Plan {
    /// The plan of a list of polygons.
    pub fn list(polygons: &[Polygon]) -> Plan {
        Plan {
            ring_counts: polygons.iter().map(Vec::len).collect(),
            ..Plan::of_rings(Kind::List, polygons.iter().flatten())
        }
    }

    /// The plan of a tree of rings.
    pub fn tree(rings: &[Ring]) -> Plan {
        Plan::of_rings(Kind::Tree, rings.iter())
    }

    fn of_rings<'a>(kind: Kind, rings: impl Iterator<Item = &'a Ring> + Clone) -> Plan {
        Plan {
            kind,
            coordinates: rings.clone().flatten().flat_map(|&(x, y)| [x, y]).collect(),
            ring_lengths: rings.map(Vec::len).collect(),
            ring_counts: Vec::new(),
        }
    }

    /// The corners in plan order.
    pub fn corners(&self) -> Vec<Point> {
        let (pairs, _) = self.coordinates.as_chunks::<2>();
        pairs.iter().map(|&[x, y]| (x, y)).collect()
    }

    /// The rings in plan order.
    pub fn rings(&self) -> Vec<Ring> {
        parts(&self.corners(), &self.ring_lengths)
    }

    /// The polygons in plan order; none for a tree.
    pub fn polygons(&self) -> Vec<Polygon> {
        parts(&self.rings(), &self.ring_counts)
    }

    /// Whether every corner is in range.
    pub fn in_range(&self) -> bool {
        self.coordinates.iter().all(|&c| within(c, GRID_LIMIT))
    }
}

/// The closed edges of a ring: corner i to corner i + 1, the last to the first.
pub fn edges(ring: &[Point]) -> impl Iterator<Item = (Point, Point)> {
    let ends = ring.iter().cycle().skip(1);
    ring.iter().copied().zip(ends.copied())
}

/// Cuts a list into consecutive parts of the given lengths.
fn parts<T: Clone>(items: &[T], lengths: &[usize]) -> Vec<Vec<T>> {
    let mut rest = items;
    let mut parts = Vec::new();
    for &length in lengths {
        let (part, after) = rest.split_at(length);
        parts.push(part.to_vec());
        rest = after;
    }
    parts
}

/// Whether a coordinate is within ± `limit`, ends included.
pub fn within(coordinate: i64, limit: i64) -> bool {
    -limit <= coordinate && coordinate <= limit
}

/// Which grid a query point is on.
#[derive(Clone, Copy, Debug, PartialEq, Eq)]
pub enum Mode {
    /// The point itself.
    Grid = 0,
    /// Twice the point, so that it may lie on the half-grid.
    Doubled = 1,
}

/// A point that is asked of a plan.
#[derive(Clone, Copy, Debug, PartialEq, Eq)]
pub struct Query {
    pub mode: Mode,
    pub x: i64,
    pub y: i64,
}

impl Query {
    /// A query on the grid.
    pub fn grid(x: i64, y: i64) -> Query {
        let mode = Mode::Grid;
        Query { mode, x, y }
    }

    /// A query on the half-grid, with twice the point.
    pub fn doubled(x: i64, y: i64) -> Query {
        let mode = Mode::Doubled;
        Query { mode, x, y }
    }

    /// Whether the point is in range on its grid.
    pub fn in_range(&self) -> bool {
        let limit = match self.mode {
            Mode::Grid => GRID_LIMIT,
            Mode::Doubled => DOUBLED_LIMIT,
        };
        within(self.x, limit) && within(self.y, limit)
    }
}
