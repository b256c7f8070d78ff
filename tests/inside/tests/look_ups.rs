//! Every point of a window, and of its half-grid, with the ray of choice and along each of the four rays, ring by ring, and by the rules.

use capi::prepared::Prepared;
use inside::calls::{locate_along, locate_in_plan};
use inside::shapes::{grid, listed, nested};
use plans::named::named_cases;
use plans::plan::{Plan, Query, Ring};
use plans::rays::RAYS;
use plans::reference;

/// Points outside, inside and on the boundary.
type Places = [usize; 3];

/// Looks each point up in every way, and counts them by their place.
fn places(plan: &Plan, queries: &[Query]) -> Places {
    let prepared = Prepared::new(plan);
    let mut places = [0; 3];
    for (&query, due) in queries.iter().zip(reference::replies(plan, queries)) {
        let reply = i64::from(due);
        assert_eq!(prepared.locate(query), reply, "{query:?}");
        assert_eq!(prepared.locate_by_rings(query), reply, "{query:?}");
        assert_eq!(locate_in_plan(plan, query), reply, "{query:?}");
        for ray in RAYS {
            let along = locate_along(ray, prepared.state, prepared.tables.shown(), query);
            assert_eq!(along, reply, "{query:?} {ray:?}");
        }
        places[usize::from(due)] += 1;
    }
    places
}

/// The points of a square window, and those of its half-grid.
fn window(x: i64, y: i64, side: i64) -> [Vec<Query>; 2] {
    let points = |side: i64| (0..side).flat_map(move |j| (0..side).map(move |i| (i, j)));
    let whole = points(side).map(|(i, j)| Query::grid(x + i, y + j));
    let half = points(2 * side).map(|(i, j)| Query::doubled(2 * x + i, 2 * y + j));
    [whole.collect(), half.collect()]
}

fn check(plan: &Plan, window: &[Vec<Query>; 2], due: [Places; 2]) {
    let found = [0, 1].map(|grid| places(plan, &window[grid]));
    assert_eq!(found, due);
}

#[test]
fn the_named_plans_along_each_ray() {
    for case in named_cases() {
        for (query, reply) in case.stated {
            let mut due = [0; 3];
            due[usize::from(reply)] = 1;
            assert_eq!(places(&case.plan, &[query]), due, "{}", case.name);
        }
    }
}

#[test]
fn the_first_point_beside_and_in_a_hole() {
    let square = |low, high| vec![(low, low), (high, low), (high, high), (low, high)];
    let prepared = Prepared::new(&Plan::list(&[vec![square(0, 10), square(4, 6)]]));
    let points = [11, 10, 5, 5, -1, 0, 4, 5, 1, 5];
    assert_eq!(prepared.first_not_outside(&points), Ok(Some(3)));
    assert_eq!(prepared.first_not_outside(&points[..6]), Ok(None));
}

#[test]
fn overlapping_squares_with_holes() {
    let rings = grid(3_200);
    let window = window(0, 0, 20);
    let half = [714, 348, 538];
    check(&listed(&rings, 2), &window, [[129, 157, 114], half]);
    check(&Plan::tree(&rings), &window, [[129, 21, 250], half]);
}

/// The window round the middle of nested rings.
fn middle(rings: &[Ring], side: i64) -> [Vec<Query>; 2] {
    let count = rings.len() as i64;
    window(2 * count - side / 2, 3 * count - side / 2, side)
}

#[test]
fn nested_rings() {
    let rings = nested(3_200);
    let window = middle(&rings, 20);
    let half = [697, 543, 360];
    check(&listed(&rings, 2), &window, [[125, 95, 180], half]);
    check(&listed(&rings, 3_200), &window, [[400, 0, 0], half]);
    check(&Plan::tree(&rings), &window, [[125, 95, 180], half]);
}

/// As many rings as there may be, inside each other.
const MOST: usize = 65_536;
const MOST_HALF: Places = [77, 36, 31];

#[test]
fn most_nested_rings_with_a_hole_each() {
    let rings = nested(MOST);
    let window = middle(&rings, 6);
    check(&listed(&rings, 2), &window, [[15, 6, 15], MOST_HALF]);
}

#[test]
fn most_nested_rings_as_one_polygon() {
    let rings = nested(MOST);
    let window = middle(&rings, 6);
    check(&listed(&rings, MOST), &window, [[36, 0, 0], MOST_HALF]);
}

#[test]
fn most_nested_rings_as_a_tree() {
    let rings = nested(MOST);
    let window = middle(&rings, 6);
    check(&Plan::tree(&rings), &window, [[15, 6, 15], MOST_HALF]);
}
