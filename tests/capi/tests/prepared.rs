//! Prepared plans through the exports: document 01's cases, the tables, and the look-ups through the boxes beside those ring by ring.

use capi::prepared::{Prepared, node_count};
use capi::soundness::{Cuts, check};
use plans::generate::{self, SEED, Size};
use plans::named::named_cases;
use plans::plan::{Mode, Plan, Query};
use plans::reference;

const PLANS: usize = 2_000;

/// Plans that are often cut more than once.
const SIZE: Size = Size {
    corners: 600,
    rings: 100,
};

const QUERIES: usize = 32;

#[test]
fn named_cases_get_their_stated_replies() {
    for case in named_cases() {
        let prepared = Prepared::new(&case.plan);
        for &(query, stated) in &case.stated {
            assert_eq!(
                prepared.locate(query),
                stated.into(),
                "{}, {query:?}",
                case.name
            );
            assert_eq!(
                prepared.locate_by_rings(query),
                stated.into(),
                "{}, {query:?}",
                case.name
            );
        }
    }
}

#[test]
fn generated_plans_get_the_replies_of_the_rules() {
    for number in 0..PLANS {
        let case = generate::case(SEED, number, SIZE, QUERIES);
        let prepared = Prepared::new(&case.plan);
        let due = reference::replies(&case.plan, &case.queries);
        for (&query, reply) in case.queries.iter().zip(due) {
            assert_eq!(
                prepared.locate(query),
                reply.into(),
                "{query:?} of {:?}",
                case.plan
            );
            assert_eq!(
                prepared.locate_by_rings(query),
                reply.into(),
                "{query:?} of {:?}",
                case.plan
            );
        }
    }
}

#[test]
fn prepared_tables_are_sound_and_the_state_counts() {
    for number in 0..PLANS {
        let plan = generate::case(SEED, number, SIZE, 0).plan;
        let prepared = Prepared::new(&plan);
        let state = prepared.state;
        assert_eq!(state.kind, plan.kind as u64);
        assert_eq!(state.corners as usize, plan.coordinates.len() / 2);
        assert_eq!(state.rings as usize, plan.ring_lengths.len());
        assert_eq!(state.polygons as usize, plan.ring_counts.len());
        assert_eq!(state.undo_depth, 0);
        assert_eq!(state.out_of_range, u64::from(!plan.in_range()));
        if plan.in_range() {
            assert_eq!(check(&plan, &prepared, Cuts::AsPrepared), Ok(()));
        } else {
            assert_unindexed(&prepared);
        }
    }
}

/// A plan out of range has nodes and edges unwritten and reports no nodes.
fn assert_unindexed(prepared: &Prepared) {
    assert_eq!(prepared.nodes, 0);
    assert!(
        prepared
            .tables
            .boxes
            .iter()
            .all(|row| *row == [i64::MIN; 4])
    );
    assert!(
        prepared
            .tables
            .parts
            .iter()
            .all(|row| *row == [usize::MAX; 3])
    );
    assert!(
        prepared
            .tables
            .edges
            .iter()
            .all(|&entry| entry == usize::MAX)
    );
}

#[test]
fn the_number_of_nodes_is_reported() {
    for (edges, nodes) in [(0, 1), (8, 1), (9, 3), (17, 5), (18, 7)] {
        let ring = (0..edges).map(|i| (i, i * i)).collect();
        let prepared = Prepared::new(&Plan::tree(&[ring]));
        assert_eq!(prepared.nodes, nodes);
        assert_eq!(node_count(edges as usize), nodes);
    }
}

#[test]
fn the_first_point_that_is_not_outside_is_found() {
    let mut found = 0;
    for number in 0..PLANS {
        let case = generate::case(SEED, number, SIZE, QUERIES);
        let on_grid: Vec<Query> = case
            .queries
            .iter()
            .copied()
            .filter(|query| query.mode == Mode::Grid)
            .collect();
        let points: Vec<i64> = on_grid
            .iter()
            .flat_map(|query| [query.x, query.y])
            .collect();
        let due = reference::replies(&case.plan, &on_grid)
            .iter()
            .position(|&reply| reply != 0);
        let prepared = Prepared::new(&case.plan);
        assert_eq!(
            prepared.first_not_outside(&points),
            Ok(due),
            "{:?}",
            case.plan
        );
        found += usize::from(due.is_some_and(|place| place > 0));
    }
    assert!(
        found > PLANS / 20,
        "{found} lists begin with a point outside"
    );
}
