//! Document 01's rules, item by item and ring by ring, written from its text alone.

use crate::plan::{DOUBLED_LIMIT, GRID_LIMIT, Kind, Mode, Plan, Point, Query, edges, within};

/// A point in integers wide enough for every product.
type WidePoint = (i128, i128);

/// The closed edges of a ring.
type Edges = Vec<(WidePoint, WidePoint)>;

/// The three places, numbered as in item 11.
#[derive(Clone, Copy, PartialEq, Eq)]
enum Location {
    Outside = 0,
    Inside = 1,
    Boundary = 2,
}

/// The rules' replies to points asked of one plan: 0 outside, 1 inside, 2 boundary.
pub fn replies(plan: &Plan, queries: &[Query]) -> Vec<u8> {
    let reference = Reference::of(plan);
    queries
        .iter()
        .map(|query| reference.reply(query) as u8)
        .collect()
}

/// A plan as the edges of its rings.
struct Reference {
    kind: Kind,
    in_range: bool,
    rings: Vec<Edges>,
    ring_counts: Vec<usize>,
}

impl Reference {
    fn of(plan: &Plan) -> Reference {
        Reference {
            kind: plan.kind,
            in_range: plan.in_range(),
            rings: plan.rings().iter().map(|ring| wide_edges(ring)).collect(),
            ring_counts: plan.ring_counts.clone(),
        }
    }

    /// Items 6 and 7: a point out of range, or any corner out of range, gives outside.
    fn reply(&self, query: &Query) -> Location {
        let limit = match query.mode {
            Mode::Grid => GRID_LIMIT,
            Mode::Doubled => DOUBLED_LIMIT,
        };
        if !self.in_range || !within(query.x, limit) || !within(query.y, limit) {
            return Location::Outside;
        }
        let p = (query.x.into(), query.y.into());
        match (query.mode, self.kind) {
            (Mode::Grid, Kind::List) => self.list_location(p),
            (Mode::Grid, Kind::Tree) => tree_location(&self.rings, p),
            (Mode::Doubled, _) => half_grid_location(&self.rings, p),
        }
    }

    /// Item 4: inside any polygon wins, then boundary, then outside.
    fn list_location(&self, p: WidePoint) -> Location {
        let mut rings = self.rings.as_slice();
        let mut location = Location::Outside;
        for &count in &self.ring_counts {
            let (polygon, after) = rings.split_at(count);
            rings = after;
            match polygon_location(polygon, p) {
                Location::Inside => return Location::Inside,
                Location::Boundary => location = Location::Boundary,
                Location::Outside => {}
            }
        }
        location
    }
}

fn wide_edges(ring: &[Point]) -> Edges {
    let wide = |(x, y): Point| (x.into(), y.into());
    edges(ring).map(|(a, b)| (wide(a), wide(b))).collect()
}

/// Item 4: the outer ring unless the point is inside it, then the first hole that is not outside.
fn polygon_location(rings: &[Edges], p: WidePoint) -> Location {
    let outer = ring_location(&rings[0], p);
    if outer != Location::Inside {
        return outer;
    }
    let mut holes = rings[1..].iter().map(|hole| ring_location(hole, p));
    match holes.find(|&hole| hole != Location::Outside) {
        None => Location::Inside,
        Some(Location::Inside) => Location::Outside,
        Some(other) => other,
    }
}

/// Item 4: any boundary is boundary, otherwise inside exactly if an odd number of rings hold the point.
fn tree_location(rings: &[Edges], p: WidePoint) -> Location {
    let locations: Vec<Location> = rings.iter().map(|ring| ring_location(ring, p)).collect();
    let number = |wanted| locations.iter().filter(|&&found| found == wanted).count();
    if number(Location::Boundary) > 0 {
        Location::Boundary
    } else {
        inside_if(number(Location::Inside) % 2 == 1)
    }
}

/// Item 3: on a closed edge is boundary, otherwise a winding number other than zero is inside.
fn ring_location(edges: &Edges, p: WidePoint) -> Location {
    if edges.iter().any(|&(a, b)| on_edge(a, b, p)) {
        return Location::Boundary;
    }
    let winding: i32 = edges.iter().map(|&(a, b)| edge_winding(a, b, p)).sum();
    inside_if(winding != 0)
}

/// Item 7: on any doubled edge is boundary, otherwise even-odd over the edges of all rings.
fn half_grid_location(rings: &[Edges], doubled: WidePoint) -> Location {
    let twice = |(x, y): WidePoint| (2 * x, 2 * y);
    let mut crossings = 0;
    for &(a, b) in rings.iter().flatten() {
        if on_edge(twice(a), twice(b), doubled) {
            return Location::Boundary;
        }
        crossings += edge_winding(twice(a), twice(b), doubled).abs();
    }
    inside_if(crossings % 2 == 1)
}

fn inside_if(condition: bool) -> Location {
    if condition {
        Location::Inside
    } else {
        Location::Outside
    }
}

/// The edge's part of the winding number, by item 3.
fn edge_winding(a: WidePoint, b: WidePoint, p: WidePoint) -> i32 {
    if a.1 <= p.1 && p.1 < b.1 && turn(a, b, p) > 0 {
        1
    } else if b.1 <= p.1 && p.1 < a.1 && turn(a, b, p) < 0 {
        -1
    } else {
        0
    }
}

/// Whether a point is on a closed edge: in line with its ends, which do not lie the same way from it.
fn on_edge(a: WidePoint, b: WidePoint, p: WidePoint) -> bool {
    let same_way = (a.0 - p.0) * (b.0 - p.0) + (a.1 - p.1) * (b.1 - p.1);
    turn(a, b, p) == 0 && same_way <= 0
}

/// Positive if `p` is left of the way from `a` to `b`, negative if right of it, zero if in line.
fn turn(a: WidePoint, b: WidePoint, p: WidePoint) -> i128 {
    (b.0 - a.0) * (p.1 - a.1) - (b.1 - a.1) * (p.0 - a.0)
}
