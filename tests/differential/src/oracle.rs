//! The replies of the original Rust.

use plans::plan::{Kind, Mode, Plan, Query, Ring};
use polyclip::{Geometry as _, Location, Point, PolyNode, PolyTree, Polygon, Preparable, Prepared};

/// The original's replies to points asked of one plan, which is prepared once:
/// 0 outside, 1 inside, 2 boundary.
pub fn replies(plan: &Plan, queries: &[Query]) -> Vec<u8> {
    Original::of(plan).replies(queries)
}

/// A plan as the original has it.
pub struct Original {
    geometry: Geometry,
    in_range: bool,
}

enum Geometry {
    List(Vec<Polygon>),
    Tree(PolyTree),
}

impl Original {
    /// The original's list or tree for a plan.
    pub fn of(plan: &Plan) -> Original {
        Original {
            geometry: match plan.kind {
                Kind::List => Geometry::List(list(plan)),
                Kind::Tree => Geometry::Tree(tree(plan)),
            },
            in_range: plan.in_range(),
        }
    }

    /// The replies to points, by the geometry prepared.
    pub fn replies(&self, queries: &[Query]) -> Vec<u8> {
        match &self.geometry {
            Geometry::List(list) => self.replies_of(list, queries),
            Geometry::Tree(tree) => self.replies_of(tree, queries),
        }
    }

    /// Prepares the geometry and asks every point of it.
    fn replies_of<G: Preparable>(&self, geometry: &G, queries: &[Query]) -> Vec<u8> {
        let prepared = Prepared::new(geometry);
        let reply = |query: &Query| {
            let point = Point::new(query.x, query.y);
            number(match query.mode {
                Mode::Grid => prepared.locate(point),
                // It has no range test: document 01's range rule stands in front.
                Mode::Doubled if self.in_range && query.in_range() => {
                    prepared.locate_doubled(point)
                }
                Mode::Doubled => Location::Outside,
            })
        };
        queries.iter().map(reply).collect()
    }

    /// The place of the first point that is not outside. The plan is in range.
    pub fn first_not_outside(&self, points: &[(i64, i64)]) -> Option<usize> {
        let points: Vec<Point> = points.iter().map(|&(x, y)| Point::new(x, y)).collect();
        let found = match &self.geometry {
            Geometry::List(list) => list.first_not_outside(&points),
            Geometry::Tree(tree) => tree.first_not_outside(&points),
        }?;
        points.iter().position(|&point| point == found)
    }
}

/// The plan as the original's list of polygons.
fn list(plan: &Plan) -> Vec<Polygon> {
    let polygon = |rings: &Vec<Ring>| {
        let mut rings = rings.iter().map(ring);
        let outer = rings.next().expect("a polygon has an outer ring");
        Polygon::new(outer, rings.collect())
    };
    plan.polygons().iter().map(polygon).collect()
}

/// The plan as the original's tree. Its nesting is left out: location looks at the plain list of rings.
fn tree(plan: &Plan) -> PolyTree {
    let node = |corners: &Ring| PolyNode {
        ring: ring(corners),
        ..PolyNode::default()
    };
    PolyTree {
        nodes: plan.rings().iter().map(node).collect(),
        roots: Vec::new(),
    }
}

fn ring(corners: &Ring) -> polyclip::Ring {
    corners.iter().map(|&(x, y)| Point::new(x, y)).collect()
}

/// The number that document 01 gives a reply.
fn number(location: Location) -> u8 {
    match location {
        Location::Outside => 0,
        Location::Inside => 1,
        Location::OnBoundary => 2,
    }
}
