//! The differences from the original that docs/DIFFERENCES.md names, each shown by a least input.

use capi::prepared::Prepared;
use plans::plan::{GRID_LIMIT, Plan, Query};
use polyclip::{Geometry, Location, Point, PolyNode, PolyTree, Polygon, Ring};
use std::panic;

/// Document 01's P12: the second corner is one beyond the range.
const BEYOND: [(i64, i64); 3] = [(0, 0), (GRID_LIMIT + 1, 0), (0, GRID_LIMIT)];

const SQUARE: [(i64, i64); 4] = [(0, 0), (10, 0), (10, 10), (0, 10)];

fn polygon(corners: &[(i64, i64)]) -> Polygon {
    let ring: Ring = corners.iter().map(|&(x, y)| Point::new(x, y)).collect();
    Polygon::new(ring, Vec::new())
}

/// Item 7: the original has no range test on the half-grid; ours replies outside on a plan out of range.
#[test]
fn the_half_grid_of_a_plan_out_of_range() {
    let original = vec![polygon(&BEYOND)];
    let prepared = polyclip::Prepared::new(&original);
    assert_eq!(prepared.locate(Point::new(1, 1)), Location::Outside);
    assert_eq!(prepared.locate_doubled(Point::new(2, 2)), Location::Inside);
    let ours = Prepared::new(&Plan::list(&[vec![BEYOND.to_vec()]]));
    assert_eq!(ours.locate(Query::grid(1, 1)), 0);
    assert_eq!(ours.locate(Query::doubled(2, 2)), 0);
    assert_eq!(ours.locate_by_rings(Query::doubled(2, 2)), 0);
    assert_eq!(ours.nodes, 0, "nothing is indexed");
}

/// Item 8: the original tests the range ring by ring; ours follows the mark of the whole plan.
#[test]
fn the_first_point_of_a_plan_out_of_range() {
    let original = vec![polygon(&BEYOND), polygon(&SQUARE)];
    let found = original.first_not_outside(&[Point::new(5, 5)]);
    assert_eq!(found, Some(Point::new(5, 5)));
    let plan = Plan::list(&[vec![BEYOND.to_vec()], vec![SQUARE.to_vec()]]);
    let ours = Prepared::new(&plan);
    assert_eq!(ours.first_not_outside(&[5, 5]), Ok(None));
}

/// Whether the original panics, in a build with overflow checks, and what it replies in one without.
fn in_this_build<T>(call: impl FnOnce() -> T + panic::UnwindSafe) -> Option<T> {
    let answer = panic::catch_unwind(call).ok();
    assert_eq!(answer.is_none(), cfg!(debug_assertions));
    answer
}

/// 9 polygons without a corner and 456 points are the fewest for which the original boxes polygons and cuts a part of empty boxes only.
#[test]
fn the_first_point_of_many_empty_polygons() {
    let polygons = 9;
    let points = vec![(5, 5); 456];
    let original = vec![polygon(&[]); polygons];
    let asked: Vec<Point> = points.iter().map(|&(x, y)| Point::new(x, y)).collect();
    let fewer = original.first_not_outside(&asked[1..]);
    assert_eq!(fewer, None, "one point less is asked without boxes");
    if let Some(found) = in_this_build(|| original.first_not_outside(&asked)) {
        assert_eq!(found, None);
    }
    let tree = PolyTree {
        nodes: vec![PolyNode::default(); polygons],
        roots: Vec::new(),
    };
    if let Some(found) = in_this_build(|| tree.first_not_outside(&asked)) {
        assert_eq!(found, None);
    }
    let ours = Prepared::new(&Plan::list(&vec![vec![Vec::new()]; polygons]));
    let coordinates: Vec<i64> = points.iter().flat_map(|&(x, y)| [x, y]).collect();
    assert_eq!(ours.first_not_outside(&coordinates), Ok(None));
}

/// Doubling a corner near the ends of 64 bits overflows in the original.
#[test]
fn the_half_grid_of_corners_near_the_ends_of_64_bits() {
    let far = [(0, 0), (i64::MAX, 0), (0, i64::MAX)];
    let original = vec![polygon(&far)];
    let prepared = polyclip::Prepared::new(&original);
    let asked = panic::AssertUnwindSafe(&prepared);
    in_this_build(|| asked.locate_doubled(Point::new(2, 2)));
    let ours = Prepared::new(&Plan::list(&[vec![far.to_vec()]]));
    assert_eq!(ours.locate(Query::doubled(2, 2)), 0);
}
