//! Document 01's cases P1 to P13, through the boxes and ring by ring, and a diamond that tells the open end of an edge from the closed one.

use findspot::Location::{Inside, OnBoundary, Outside};
use findspot::{Location, MAX_COORD, Plan, Point, Prepared};

type Corners = [(i64, i64); 4];

const S: Corners = [(0, 0), (10, 0), (10, 10), (0, 10)];
const H: Corners = [(4, 4), (6, 4), (6, 6), (4, 6)];
const K: Corners = [(5, 4), (8, 4), (8, 6), (5, 6)];
const T: Corners = [(5, 0), (15, 0), (15, 10), (5, 10)];

/// Asserts replies on the grid, in every way in which a point can be asked.
#[track_caller]
fn assert_places(plan: &Plan, places: &[((i64, i64), Location)]) {
    let prepared = Prepared::new(plan).expect("an accepted plan");
    for &(point, place) in places {
        let point = Point::from(point);
        assert_eq!(prepared.locate(point), place, "{point:?}");
        assert_eq!(prepared.locate_by_rings(point), place, "{point:?}");
        let first = (place != Outside).then_some(0);
        assert_eq!(prepared.first_not_outside(&[point]), Ok(first), "{point:?}");
    }
}

/// The same on the half-grid, for twice the points.
#[track_caller]
fn assert_half_places(plan: &Plan, places: &[((i64, i64), Location)]) {
    let prepared = Prepared::new(plan).expect("an accepted plan");
    for &(doubled, place) in places {
        let doubled = Point::from(doubled);
        assert_eq!(prepared.locate_doubled(doubled), place, "{doubled:?}");
        assert_eq!(
            prepared.locate_doubled_by_rings(doubled),
            place,
            "{doubled:?}"
        );
    }
}

#[test]
fn p1_a_square() {
    let replies = [
        ((5, 5), Inside),
        ((10, 10), OnBoundary),
        ((11, 10), Outside),
    ];
    assert_places(&Plan::ring(S), &replies);
}

#[test]
fn p2_an_empty_ring() {
    let empty: [Point; 0] = [];
    assert_places(&Plan::ring(empty), &[((0, 0), Outside)]);
}

#[test]
fn p3_a_ring_of_one_corner() {
    assert_places(&Plan::ring([(3, 3)]), &[((3, 3), OnBoundary)]);
}

#[test]
fn p4_a_ring_of_two_corners() {
    let replies = [((2, 2), OnBoundary), ((2, 1), Outside)];
    assert_places(&Plan::ring([(0, 0), (4, 4)]), &replies);
}

#[test]
fn p5_a_hole() {
    let replies = [((5, 5), Outside), ((4, 5), OnBoundary)];
    assert_places(&Plan::polygon([S, H]), &replies);
}

#[test]
fn p6_a_hole_in_an_empty_outer() {
    let plan = Plan::polygon([vec![], S.to_vec()]);
    assert_places(&plan, &[((5, 5), Outside)]);
}

#[test]
fn p7_the_first_hole_decides() {
    assert_places(&Plan::polygon([S, H, K]), &[((5, 5), Outside)]);
    assert_places(&Plan::polygon([S, K, H]), &[((5, 5), OnBoundary)]);
}

#[test]
fn p8_a_list() {
    assert_places(&Plan::list([[S], [T]]), &[((10, 5), Inside)]);
}

#[test]
fn p9_a_tree() {
    assert_places(&Plan::tree([S, T]), &[((10, 5), OnBoundary)]);
}

#[test]
fn p10_a_square_gone_round_twice() {
    let plan = Plan::ring([S, S].concat());
    assert_places(&plan, &[((5, 5), Inside)]);
    assert_half_places(&plan, &[((10, 10), Outside)]);
}

#[test]
fn p11_the_half_grid() {
    let replies = [((1, 1), Inside), ((0, 1), OnBoundary), ((-1, 1), Outside)];
    assert_half_places(&Plan::ring(S), &replies);
}

#[test]
fn p12_the_range() {
    let largest = Plan::ring([(0, 0), (MAX_COORD, 0), (0, MAX_COORD)]);
    assert_places(&largest, &[((1, 1), Inside)]);
    let too_large = Plan::ring([(0, 0), (MAX_COORD + 1, 0), (0, MAX_COORD)]);
    assert_places(&too_large, &[((1, 1), Outside)]);
    assert_half_places(&too_large, &[((2, 2), Outside)]);
    let marked = Prepared::new(&too_large).expect("it is accepted");
    assert!(!marked.in_range());
    assert_eq!(marked.extent(), None);
    assert_eq!(marked.node_count(), 0);
}

#[test]
fn p13_the_number_of_nodes() {
    for (edges, nodes) in [(0, 1), (8, 1), (9, 3), (17, 5), (18, 7)] {
        let ring = Plan::ring((0..edges).map(|i| (i, i * i)));
        let prepared = Prepared::new(&ring).expect("an accepted plan");
        assert_eq!(prepared.node_count(), nodes, "{edges} edges");
    }
}

#[test]
fn a_diamond() {
    let diamond = Plan::ring([(0, 0), (5, -5), (10, 0), (5, 5)]);
    assert_places(&diamond, &[((5, 0), Inside)]);
    assert_half_places(&diamond, &[((10, 0), Inside)]);
}
