//! Plans at document 01's ceilings: 1,048,576 corners, in one ring and in up to 65,536.

use crate::plan::{GRID_LIMIT, Plan, Point, Polygon, Ring};
use crate::random::Random;
use crate::rings::{long_ring, shifted, square};

/// The most corners of a plan.
pub const CORNERS: usize = 1 << 20;

/// The most rings of a plan.
pub const RINGS: usize = 1 << 16;

type Largest = fn(&mut Random) -> Plan;

/// A plan at the ceilings, and how many points can be asked of it: a look-up that meets few edges is quick, one that meets all of them is not.
pub struct LargestPlan {
    pub name: &'static str,
    pub points: usize,
    make: Largest,
}

impl LargestPlan {
    pub fn plan(&self, random: &mut Random) -> Plan {
        (self.make)(random)
    }
}

/// The plans at the ceilings.
pub const LARGEST: [LargestPlan; 7] = [
    LargestPlan {
        name: "a list of 65,536 polygons beside each other",
        points: 100_000,
        make: many_polygons,
    },
    LargestPlan {
        name: "a tree of 65,536 rings beside each other",
        points: 100_000,
        make: many_rings,
    },
    LargestPlan {
        name: "a list of one polygon whose ring winds over the whole range",
        points: 20_000,
        make: one_ring,
    },
    LargestPlan {
        name: "a tree of sixteen long rings and a far outline",
        points: 5_000,
        make: long_rings,
    },
    LargestPlan {
        name: "a list of 32,768 polygons with a hole, most of the corners in the last",
        points: 500,
        make: uneven_polygons,
    },
    LargestPlan {
        name: "a tree of 65,536 rings inside each other",
        points: 200,
        make: nested_rings,
    },
    LargestPlan {
        name: "a list of one ring with all corners at one place",
        points: 50,
        make: one_place,
    },
];

/// The lower left corner of a cell of a square of cells.
fn cell(number: usize, side: i64) -> Point {
    let (column, row) = ((number % 256) as i64, (number / 256) as i64);
    ((column - 128) * side, (row - 128) * side)
}

/// A ring of sixteen corners that jump about in a cell.
fn cell_ring(random: &mut Random, number: usize, side: i64) -> Ring {
    let reach = side + 2;
    let mut corner = |_| (random.between(0, reach), random.between(0, reach));
    let ring: Ring = (0..CORNERS / RINGS).map(&mut corner).collect();
    let (x, y) = cell(number, side);
    shifted(&ring, x, y)
}

fn many_polygons(random: &mut Random) -> Plan {
    let polygon = |number| vec![cell_ring(random, number, 30)];
    let polygons: Vec<Polygon> = (0..RINGS).map(polygon).collect();
    Plan::list(&polygons)
}

fn many_rings(random: &mut Random) -> Plan {
    let ring = |number| cell_ring(random, number, GRID_LIMIT / 130);
    let rings: Vec<Ring> = (0..RINGS).map(ring).collect();
    Plan::tree(&rings)
}

/// Six turns of a square spiral over the range, each corner a little to one side of it.
fn one_ring(random: &mut Random) -> Plan {
    let corner = |number: usize| {
        let reach = GRID_LIMIT / 10 * (2 * CORNERS + 7 * number) as i64 / CORNERS as i64;
        let part = number * 6 % CORNERS;
        let (x, y) = on_square(reach - (1 << 31), part);
        let mut off = || random.between(-(1 << 30), 1 << 30);
        (x + off(), y + off())
    };
    Plan::list(&[vec![(0..CORNERS).map(corner).collect()]])
}

/// The place on the square round the origin that is reached after a part, of [`CORNERS`], of the way round it.
fn on_square(reach: i64, part: usize) -> Point {
    let side = CORNERS / 4;
    let along = reach / side as i64 * 2 * (part % side) as i64 - reach;
    match part / side {
        0 => (along, -reach),
        1 => (reach, along),
        2 => (-along, reach),
        _ => (-reach, -along),
    }
}

fn long_rings(random: &mut Random) -> Plan {
    let far = square((GRID_LIMIT - 9, 5), 9);
    let each = (CORNERS - far.len()) / 16;
    let mut rings: Vec<Ring> = (0..16).map(|_| long_ring(random, each)).collect();
    let rest = CORNERS - far.len() - 16 * each;
    rings.push(vec![(7, 7); rest]);
    rings.push(far);
    Plan::tree(&rings)
}

fn uneven_polygons(random: &mut Random) -> Plan {
    let hole = |number: usize| {
        let (x, y) = cell(number, 12);
        square((x + 3, y + 3), 4)
    };
    let pair = |number: usize| vec![square(cell(number, 12), 11), hole(number)];
    let mut polygons: Vec<Polygon> = (0..RINGS / 2 - 1).map(pair).collect();
    let corners = CORNERS - 8 * polygons.len();
    let last = (0..corners - 4).map(|_| (random.between(-900, 900), random.between(-900, 900)));
    polygons.push(vec![last.collect(), hole(RINGS / 2 - 1)]);
    Plan::list(&polygons)
}

/// Squares, each corner of which stands there four times.
fn nested_rings(_: &mut Random) -> Plan {
    let ring = |k: usize| {
        let k = k as i64;
        let corners = square((k, k), 2 * (RINGS as i64 - k));
        corners.into_iter().flat_map(|corner| [corner; 4]).collect()
    };
    let rings: Vec<Ring> = (0..RINGS).map(ring).collect();
    Plan::tree(&rings)
}

fn one_place(_: &mut Random) -> Plan {
    Plan::list(&[vec![vec![(-3, 5); CORNERS]]])
}
