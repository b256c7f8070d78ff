//! Refusals of preparing, look-ups and lists of points: each number under its condition, in order, and nothing written.

use capi::exports::State;
use capi::prepared::{Prepared, Tables};
use plans::named::named_cases;
use plans::plan::{GRID_LIMIT, Kind, Plan, Query};

const CORNERS: usize = 1_048_576;
const RINGS: usize = 65_536;
const POINTS: usize = 65_536;

/// A list of one square.
fn square() -> Plan {
    let ring = vec![(0, 0), (10, 0), (10, 10), (0, 10)];
    Plan::list(&[vec![ring]])
}

/// What preparing a plan answers in tables that are long enough: its number and table. The tables stay as they were where it is refused.
fn refused(plan: &Plan) -> (u64, u64) {
    refused_in(&mut Tables::for_plan(plan), plan)
}

fn refused_in(tables: &mut Tables, plan: &Plan) -> (u64, u64) {
    let before = tables.clone();
    let preparing = tables.prepare(plan);
    if preparing.refusal > 0 {
        assert_eq!(*tables, before, "a refusal wrote");
        assert_eq!(preparing.nodes, 0);
    }
    (preparing.refusal, preparing.table)
}

#[test]
fn counts_that_do_not_fit_get_3() {
    let refuses = |change: fn(&mut Plan)| {
        let mut plan = square();
        change(&mut plan);
        refused(&plan)
    };
    assert_eq!(refused(&square()), (0, 0));
    assert_eq!(refuses(|plan| plan.coordinates.push(0)), (3, 0));
    assert_eq!(refuses(|plan| plan.ring_lengths[0] = 3), (3, 0));
    assert_eq!(refuses(|plan| plan.ring_lengths[0] = usize::MAX), (3, 0));
    assert_eq!(refuses(|plan| plan.ring_lengths.push(0)), (3, 0));
    assert_eq!(refuses(|plan| plan.ring_counts[0] = 2), (3, 0));
    assert_eq!(refuses(|plan| plan.ring_counts.push(0)), (3, 0));
    assert_eq!(refuses(|plan| plan.ring_counts.clear()), (3, 0));
    // a tree's polygon table is not looked at
    let tree = Plan {
        kind: Kind::Tree,
        ring_counts: vec![7, 0],
        ..square()
    };
    assert_eq!(refused(&tree), (0, 0));
}

#[test]
fn counts_above_a_ceiling_get_4_before_3() {
    let many_rings = |count| Plan {
        ring_lengths: vec![0; count],
        ..Plan::tree(&[])
    };
    assert_eq!(refused(&many_rings(RINGS)), (0, 0));
    assert_eq!(refused(&many_rings(RINGS + 1)), (4, 0));
    let uneven = Plan {
        coordinates: vec![0],
        ..many_rings(RINGS + 1)
    };
    assert_eq!(refused(&uneven), (4, 0));
    let many_corners = |count| Plan {
        coordinates: vec![0; count],
        ring_lengths: vec![count / 2],
        ..Plan::tree(&[])
    };
    assert_eq!(refused(&many_corners(2 * CORNERS + 2)), (4, 0));
    // an odd list counts as half its length, rounded down
    assert_eq!(refused(&many_corners(2 * CORNERS + 1)), (3, 0));
    let many_polygons = Plan {
        kind: Kind::List,
        ring_counts: vec![1; RINGS + 1],
        ..many_rings(RINGS)
    };
    assert_eq!(refused(&many_polygons), (4, 0));
}

#[test]
fn short_tables_get_11_with_the_first() {
    let plan = square();
    let shortened = |change: fn(&mut Tables)| {
        let mut tables = Tables::for_plan(&plan);
        change(&mut tables);
        refused_in(&mut tables, &plan)
    };
    let corners = |tables: &mut Tables| tables.corners.truncate(7);
    let rings = |tables: &mut Tables| tables.rings.clear();
    let polygons = |tables: &mut Tables| tables.polygons.clear();
    let boxes = |tables: &mut Tables| tables.boxes.clear();
    let parts = |tables: &mut Tables| tables.parts.clear();
    let edges = |tables: &mut Tables| tables.edges.truncate(3);
    let each: [fn(&mut Tables); 6] = [corners, rings, polygons, boxes, parts, edges];
    for (change, table) in each.into_iter().zip([1, 2, 3, 4, 4, 5]) {
        assert_eq!(shortened(change), (11, table));
    }
    assert_eq!(shortened(|tables| *tables = empty()), (11, 1));
    assert_eq!(
        shortened(|tables| *tables = Tables {
            corners: vec![0; 8],
            ..empty()
        }),
        (11, 2)
    );
    assert_eq!(
        shortened(|tables| *tables = Tables {
            corners: vec![0; 8],
            rings: vec![0],
            ..empty()
        }),
        (11, 3)
    );
}

fn empty() -> Tables {
    Tables {
        corners: Vec::new(),
        rings: Vec::new(),
        polygons: Vec::new(),
        boxes: Vec::new(),
        parts: Vec::new(),
        edges: Vec::new(),
        undo: Vec::new(),
    }
}

#[test]
fn a_plan_out_of_range_needs_no_nodes_and_no_edges() {
    let mut plan = square();
    plan.coordinates[2] = GRID_LIMIT + 1;
    let mut tables = Tables {
        boxes: Vec::new(),
        parts: Vec::new(),
        edges: Vec::new(),
        ..Tables::for_plan(&plan)
    };
    let preparing = tables.prepare(&plan);
    assert_eq!((preparing.refusal, preparing.nodes), (0, 0));
    assert_eq!(preparing.state.out_of_range, 1);
    assert_eq!(tables.corners, plan.coordinates);
    assert_eq!(tables.locate(preparing.state, Query::grid(5, 5)), 0);
    assert_eq!(tables.locate(preparing.state, Query::doubled(5, 5)), 0);
    assert_eq!(tables.first_not_outside(preparing.state, &[5, 5]), Ok(None));
    assert_eq!(tables.first_not_outside(preparing.state, &[5]), Err(3));
}

#[test]
fn entries_beyond_the_plan_stay_as_they_were() {
    let plan = square();
    let mut tables = Tables::for_plan(&plan);
    tables.corners.extend([7; 3]);
    tables.rings.extend([7; 3]);
    tables.polygons.extend([7; 3]);
    tables.boxes.extend([[7; 4]; 3]);
    tables.parts.extend([[7; 3]; 3]);
    tables.edges.extend([7; 3]);
    assert_eq!(tables.prepare(&plan).nodes, 1);
    assert!(
        tables.corners.ends_with(&[7; 3])
            && tables.rings.ends_with(&[7; 3])
            && tables.polygons.ends_with(&[7; 3])
    );
    assert!(
        tables.boxes.ends_with(&[[7; 4]; 3])
            && tables.parts.ends_with(&[[7; 3]; 3])
            && tables.edges.ends_with(&[7; 3])
    );
}

#[test]
fn lists_of_points_get_4_and_3() {
    let prepared = Prepared::new(&square());
    assert_eq!(prepared.first_not_outside(&[]), Ok(None));
    assert_eq!(prepared.first_not_outside(&[11, 11, 5]), Err(3));
    assert_eq!(prepared.first_not_outside(&[11; 2 * POINTS]), Ok(None));
    assert_eq!(prepared.first_not_outside(&[11; 2 * POINTS + 1]), Err(3));
    assert_eq!(prepared.first_not_outside(&[11; 2 * POINTS + 2]), Err(4));
    assert_eq!(prepared.first_not_outside(&[11; 2 * POINTS + 3]), Err(4));
    assert_eq!(
        prepared.first_not_outside(&[11, 11, 10, 10, 5, 5]),
        Ok(Some(1))
    );
}

#[test]
fn numbers_that_are_no_kind_or_mark_get_15() {
    let plan = square();
    let prepared = Prepared::new(&plan);
    let state = prepared.state;
    for wrong in [
        State { kind: 2, ..state },
        State {
            out_of_range: 2,
            ..state
        },
        State {
            kind: u64::MAX,
            ..state
        },
    ] {
        for query in [
            Query::grid(5, 5),
            Query::doubled(5, 5),
            Query::grid(i64::MAX, 0),
        ] {
            assert_eq!(prepared.tables.locate(wrong, query), -15);
            assert_eq!(prepared.tables.locate_by_rings(wrong, query), -15);
        }
        let first = |points: &[i64]| prepared.tables.first_not_outside(wrong, points);
        assert_eq!(first(&[5, 5]), Err(15));
        assert_eq!(first(&[]), Err(15));
        // the list's own 4 and 3 come first
        assert_eq!(first(&[5]), Err(3));
        assert_eq!(first(&[5; 2 * POINTS + 2]), Err(4));
        assert_eq!(first(&[5; 2 * POINTS + 3]), Err(4));
    }
    let mut tables = Tables::for_plan(&plan);
    let before = tables.clone();
    assert_eq!(tables.prepare_as(2, &plan).refusal, 15);
    assert_eq!(tables, before);
}

#[test]
fn tables_shorter_than_the_state_says_get_15() {
    let prepared = Prepared::new(&square());
    let state = prepared.state;
    let shorten: [fn(&mut Tables); 6] = [
        |tables| tables.corners.truncate(7),
        |tables| tables.rings.clear(),
        |tables| tables.polygons.clear(),
        |tables| tables.boxes.clear(),
        |tables| tables.parts.clear(),
        |tables| tables.edges.truncate(3),
    ];
    for change in shorten {
        let mut tables = prepared.tables.clone();
        change(&mut tables);
        assert_eq!(tables.locate(state, Query::grid(5, 5)), -15);
        assert_eq!(tables.locate(state, Query::doubled(11, 11)), -15);
        assert_eq!(tables.first_not_outside(state, &[5, 5]), Err(15));
        // out of range is outside before a table is read
        assert_eq!(tables.locate(state, Query::grid(GRID_LIMIT + 1, 5)), 0);
        assert_eq!(
            tables.locate(state, Query::doubled(2 * GRID_LIMIT + 1, 5)),
            0
        );
    }
}

#[test]
fn the_named_cases_are_prepared_in_tables_just_long_enough() {
    for case in named_cases() {
        assert_eq!(refused(&case.plan), (0, 0), "{}", case.name);
    }
}
