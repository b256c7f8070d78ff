//! The cases that document 01 names, with the replies that it states.

use crate::plan::{GRID_LIMIT, Plan, Point, Polygon, Query};

/// A plan and the replies that document 01 states.
pub struct NamedCase {
    pub name: &'static str,
    pub plan: Plan,
    pub stated: Vec<(Query, u8)>,
}

const OUTSIDE: u8 = 0;
const INSIDE: u8 = 1;
const BOUNDARY: u8 = 2;

const S: [Point; 4] = [(0, 0), (10, 0), (10, 10), (0, 10)];
const H: [Point; 4] = [(4, 4), (6, 4), (6, 6), (4, 6)];
const K: [Point; 4] = [(5, 4), (8, 4), (8, 6), (5, 6)];
const T: [Point; 4] = [(5, 0), (15, 0), (15, 10), (5, 10)];
const DIAMOND: [Point; 4] = [(0, 0), (5, -5), (10, 0), (5, 5)];
const LARGEST: [Point; 3] = [(0, 0), (GRID_LIMIT, 0), (0, GRID_LIMIT)];
const TOO_LARGE: [Point; 3] = [(0, 0), (GRID_LIMIT + 1, 0), (0, GRID_LIMIT)];

/// Cases P1 to P12, and a diamond that tells the open end of an edge from the closed one.
pub fn named_cases() -> Vec<NamedCase> {
    let grid = Query::grid;
    let doubled = Query::doubled;
    let in_square = vec![
        (grid(5, 5), INSIDE),
        (grid(10, 10), BOUNDARY),
        (grid(11, 10), OUTSIDE),
    ];
    let on_diagonal = vec![(grid(2, 2), BOUNDARY), (grid(2, 1), OUTSIDE)];
    let beside_hole = vec![(grid(5, 5), OUTSIDE), (grid(4, 5), BOUNDARY)];
    let round_twice = vec![(grid(5, 5), INSIDE), (doubled(10, 10), OUTSIDE)];
    let halves = vec![
        (doubled(1, 1), INSIDE),
        (doubled(0, 1), BOUNDARY),
        (doubled(-1, 1), OUTSIDE),
    ];
    vec![
        case("P1", polygon(&[&S]), in_square),
        case("P2", polygon(&[&[]]), vec![(grid(0, 0), OUTSIDE)]),
        case("P3", polygon(&[&[(3, 3)]]), vec![(grid(3, 3), BOUNDARY)]),
        case("P4", polygon(&[&[(0, 0), (4, 4)]]), on_diagonal),
        case("P5", polygon(&[&S, &H]), beside_hole),
        case("P6", polygon(&[&[], &S]), vec![(grid(5, 5), OUTSIDE)]),
        case("P7", polygon(&[&S, &H, &K]), vec![(grid(5, 5), OUTSIDE)]),
        case("P7", polygon(&[&S, &K, &H]), vec![(grid(5, 5), BOUNDARY)]),
        case("P8", list(&[&S, &T]), vec![(grid(10, 5), INSIDE)]),
        case("P9", tree(&[&S, &T]), vec![(grid(10, 5), BOUNDARY)]),
        case("P10", polygon(&[&[S, S].concat()]), round_twice),
        case("P11", polygon(&[&S]), halves),
        case("P12", polygon(&[&LARGEST]), vec![(grid(1, 1), INSIDE)]),
        case("P12", polygon(&[&TOO_LARGE]), vec![(grid(1, 1), OUTSIDE)]),
        case(
            "diamond",
            polygon(&[&DIAMOND]),
            vec![(grid(5, 0), INSIDE), (doubled(10, 0), INSIDE)],
        ),
    ]
}

fn case(name: &'static str, plan: Plan, stated: Vec<(Query, u8)>) -> NamedCase {
    NamedCase { name, plan, stated }
}

/// A list of one polygon.
fn polygon(rings: &[&[Point]]) -> Plan {
    Plan::list(&[owned(rings)])
}

/// A list of polygons without holes.
fn list(outers: &[&[Point]]) -> Plan {
    let polygons: Vec<Polygon> = outers.iter().map(|outer| owned(&[outer])).collect();
    Plan::list(&polygons)
}

fn tree(rings: &[&[Point]]) -> Plan {
    Plan::tree(&owned(rings))
}

fn owned(rings: &[&[Point]]) -> Polygon {
    rings.iter().map(|ring| ring.to_vec()).collect()
}
