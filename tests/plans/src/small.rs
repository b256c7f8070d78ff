//! Every plan of few corners on a small grid, and every point on it, one step beyond it and half way between.

use crate::plan::{Kind, Plan, Point, Query};

/// The grid has so many points a side, from 0 on.
const SIDE: i64 = 4;

/// How many places a corner has.
pub const PLACES: usize = (SIDE * SIDE) as usize;

/// All lists of so many corners.
pub fn corner_lists(count: usize) -> impl Iterator<Item = Vec<Point>> {
    (0..PLACES.pow(count as u32)).map(move |number| corners(number, count))
}

/// The list of corners with a number, its first corner the last digit.
fn corners(number: usize, count: usize) -> Vec<Point> {
    let digit = |place: usize| number / PLACES.pow(place as u32) % PLACES;
    let corner = |place| (digit(place) as i64 % SIDE, digit(place) as i64 / SIDE);
    (0..count).map(corner).collect()
}

/// The lists of so many corners that begin at the place of a number.
pub fn corner_lists_from(first: usize, count: usize) -> impl Iterator<Item = Vec<Point>> {
    (0..PLACES.pow(count as u32 - 1)).map(move |number| corners(first + PLACES * number, count))
}

/// Corners as one ring, which is a list of one polygon or a tree of one node.
pub fn unsplit(corners: &[Point]) -> [Plan; 2] {
    [
        plan(Kind::List, corners, vec![corners.len()], vec![1]),
        plan(Kind::Tree, corners, vec![corners.len()], Vec::new()),
    ]
}

/// Corners as rings in every way that keeps their order and leaves none empty: as trees, and as lists of polygons in every way.
pub fn splits(corners: &[Point]) -> Vec<Plan> {
    let mut plans = Vec::new();
    for lengths in compositions(corners.len()) {
        for counts in compositions(lengths.len()) {
            plans.push(plan(Kind::List, corners, lengths.clone(), counts));
        }
        plans.push(plan(Kind::Tree, corners, lengths, Vec::new()));
    }
    plans
}

/// The plan with an empty ring in front: in a list it is its first polygon's outer ring.
pub fn with_empty_ring(mut plan: Plan) -> Plan {
    plan.ring_lengths.insert(0, 0);
    match (plan.kind, plan.ring_counts.first_mut()) {
        (Kind::Tree, _) => {}
        (Kind::List, Some(count)) => *count += 1,
        (Kind::List, None) => plan.ring_counts.push(1),
    }
    plan
}

fn plan(kind: Kind, corners: &[Point], ring_lengths: Vec<usize>, ring_counts: Vec<usize>) -> Plan {
    Plan {
        kind,
        coordinates: corners.iter().flat_map(|&(x, y)| [x, y]).collect(),
        ring_lengths,
        ring_counts,
    }
}

/// The ways to write a number as a sum of numbers from 1 on; 0 is the sum of none.
fn compositions(sum: usize) -> Vec<Vec<usize>> {
    if sum == 0 {
        return vec![Vec::new()];
    }
    let mut ways = Vec::new();
    for first in 1..=sum {
        for rest in compositions(sum - first) {
            ways.push([vec![first], rest].concat());
        }
    }
    ways
}

/// Every point of the grid and one beyond it, and every doubled point from there to there.
pub fn window() -> Vec<Query> {
    let mut window = Vec::new();
    for y in -1..=SIDE {
        window.extend((-1..=SIDE).map(|x| Query::grid(x, y)));
    }
    for y in -2..=2 * SIDE {
        window.extend((-2..=2 * SIDE).map(|x| Query::doubled(x, y)));
    }
    window
}
