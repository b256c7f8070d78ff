//! The plans that are timed, each of about so many corners and within the ceilings. Beside them the [`points`] to ask, and the [`arguments`] that
//! choose among shapes and sizes.

pub mod arguments;
pub mod points;
pub mod random;

pub use plans::plan::Kind;

use crate::random::Random;
use plans::plan::Plan;
use std::f64::consts::TAU;

/// The most corners that a plan may have.
pub const MAX_CORNERS: usize = 1_048_576;

/// The most rings that a plan may have.
pub const MAX_RINGS: usize = 65_536;

/// A corner.
pub type Corner = (i64, i64);

/// A plan whose polygons have one ring each.
pub struct Shape {
    pub kind: Kind,
    pub rings: Vec<Vec<Corner>>,
}

impl Shape {
    /// The plan of one outline.
    pub fn ring(corners: Vec<Corner>) -> Shape {
        list(vec![corners])
    }

    /// The shape as tables, as they are handed in.
    pub fn plan(&self) -> Plan {
        let polygon = |ring: &Vec<Corner>| vec![ring.clone()];
        match self.kind {
            Kind::List => Plan::list(&self.rings.iter().map(polygon).collect::<Vec<_>>()),
            Kind::Tree => Plan::tree(&self.rings),
        }
    }
}

/// A shape's name, and the shape of about so many corners.
pub type Named = (&'static str, fn(usize) -> Shape);

/// All shapes, in the order of the table.
pub const SHAPES: [Named; 8] = [
    ("star", star),
    ("smooth outline", smooth_outline),
    ("squares", squares),
    ("16-corner rings", sixteens),
    ("nested rings", nested),
    ("comb", comb),
    ("self-crossing", self_crossing),
    ("all equal", all_equal),
];

/// The names of all shapes.
pub fn names() -> Vec<&'static str> {
    SHAPES.iter().map(|(name, _)| *name).collect()
}

/// How far round outlines reach from the origin.
const REACH: f64 = 1e9;

/// The side of the cell that a small ring lies in.
const CELL: i64 = 1_000;

/// The corners of a many-cornered ring.
const SIXTEEN: usize = 16;

fn list(rings: Vec<Vec<Corner>>) -> Shape {
    let kind = Kind::List;
    Shape { kind, rings }
}

/// Corners at these distances from a centre, evenly turned.
fn round(centre: Corner, corners: usize, distance: impl Fn(usize, f64) -> f64) -> Vec<Corner> {
    let corner = |i| {
        let angle = TAU * i as f64 / corners as f64;
        let distance = distance(i, angle);
        let (x, y) = (distance * angle.cos(), distance * angle.sin());
        (centre.0 + x.round() as i64, centre.1 + y.round() as i64)
    };
    (0..corners).map(corner).collect()
}

/// Spikes: every other corner stands half as far from the centre.
fn star(corners: usize) -> Shape {
    let distance = |i, _| if i % 2 == 0 { REACH } else { REACH / 2.0 };
    Shape::ring(round((0, 0), corners, distance))
}

/// A round outline with bays, its edges short.
fn smooth_outline(corners: usize) -> Shape {
    let distance = |_, angle: f64| {
        let bays = 0.2 * (3.0 * angle).sin() + 0.1 * (7.0 * angle).sin();
        REACH * (1.0 + bays)
    };
    Shape::ring(round((0, 0), corners, distance))
}

/// The lower left corners of cells side by side, row by row.
fn cells(count: usize) -> impl Iterator<Item = Corner> {
    let across = (count as f64).sqrt().ceil() as usize;
    (0..count).map(move |i| ((i % across) as i64 * CELL, (i / across) as i64 * CELL))
}

/// Small squares side by side, a polygon each.
fn squares(corners: usize) -> Shape {
    let square = |(x, y)| {
        let side = CELL * 3 / 5;
        vec![(x, y), (x + side, y), (x + side, y + side), (x, y + side)]
    };
    list(cells((corners / 4).min(MAX_RINGS)).map(square).collect())
}

/// Small rings of 16 corners side by side, a polygon each.
fn sixteens(corners: usize) -> Shape {
    let ring = |(x, y)| round((x, y), SIXTEEN, |_, _| CELL as f64 * 0.4);
    list(
        cells((corners / SIXTEEN).min(MAX_RINGS))
            .map(ring)
            .collect(),
    )
}

/// Rings round each other, as a tree.
fn nested(corners: usize) -> Shape {
    let ring = |i| round((0, 0), SIXTEEN, |_, _| ((i + 1) * CELL as usize) as f64);
    Shape {
        kind: Kind::Tree,
        rings: (0..(corners / SIXTEEN).min(MAX_RINGS)).map(ring).collect(),
    }
}

/// A bar with long thin teeth.
fn comb(corners: usize) -> Shape {
    let teeth = (corners / 4) as i64;
    let height = teeth * CELL;
    let mut ring = vec![(teeth * CELL, -CELL), (0, -CELL)];
    ring.reserve(corners);
    for x in (0..teeth).map(|tooth| tooth * CELL) {
        let side = x + CELL / 2;
        ring.extend([(x, 0), (x, height), (side, height), (side, 0)]);
    }
    Shape::ring(ring)
}

/// One ring through corners anywhere.
fn self_crossing(corners: usize) -> Shape {
    let mut random = Random::new(corners as u64);
    let reach = REACH as i64;
    let mut corner = || (random.between(-reach, reach), random.between(-reach, reach));
    Shape::ring((0..corners).map(|_| corner()).collect())
}

/// One ring whose corners stand at one place.
fn all_equal(corners: usize) -> Shape {
    Shape::ring(vec![(7, 7); corners])
}
