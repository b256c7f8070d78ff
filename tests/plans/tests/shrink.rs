//! The shrinker, on made-up engines with a fault: what is left still shows the fault, and little else is left.

use plans::generate::{self, Case, SEED, Size};
use plans::model::{Call, Model};
use plans::plan::{Kind, Mode, Plan, Query};
use plans::reference;
use plans::sessions::{self, Session};
use plans::shrink::shrunk;

const SIZE: Size = Size {
    corners: 400,
    rings: 60,
};

const POINTS: usize = 64;

/// The first generated session that fails, made smaller.
fn smallest(sessions: impl Iterator<Item = Session>, fails: impl Fn(&Session) -> bool) -> Session {
    let mut failing = sessions.filter(|session| fails(session));
    let session = failing.next().expect("a generated session fails");
    let smallest = shrunk(&session, &fails);
    assert!(fails(&smallest), "what is left no longer fails");
    smallest
}

fn cases() -> impl Iterator<Item = Session> {
    (0..5_000).map(|number| Session::of(generate::case(SEED, number, SIZE, POINTS)))
}

/// The plan with the holes of each polygon in the other order.
fn with_holes_turned_round(plan: &Plan) -> Plan {
    let mut polygons = plan.polygons();
    for polygon in &mut polygons {
        polygon[1..].reverse();
    }
    Plan::list(&polygons)
}

#[test]
fn an_engine_that_takes_holes_in_the_other_order() {
    let fails = |session: &Session| {
        let Case { plan, queries } = &session.case;
        let faulty = || reference::replies(&with_holes_turned_round(plan), queries);
        plan.kind == Kind::List && faulty() != reference::replies(plan, queries)
    };
    let smallest = smallest(cases(), fails);
    let Case { plan, queries } = &smallest.case;
    assert_eq!(queries.len(), 1, "{smallest:?}");
    assert_eq!(plan.ring_counts, [3], "an outer ring and two holes");
    // A ring needs three corners to hold a point, and one or two to have it on its boundary.
    assert!(plan.coordinates.len() / 2 <= 8, "{smallest:?}");
    assert!(plan.coordinates.iter().all(|c| c.abs() <= 64), "{plan:?}");
}

#[test]
fn an_engine_that_is_wrong_below_far_corners() {
    const FAR: i64 = 1 << 30;
    let below_far_corner = |plan: &Plan, query: &Query| {
        let is_far = |&(x, y): &(i64, i64)| x >= FAR && query.x == x && query.y < y;
        query.mode == Mode::Grid && plan.corners().iter().any(is_far)
    };
    let fails = |session: &Session| {
        let Case { plan, queries } = &session.case;
        queries.iter().any(|query| below_far_corner(plan, query))
    };
    let smallest = smallest(cases(), fails);
    let Case { plan, queries } = &smallest.case;
    let [query] = queries[..] else {
        panic!("{queries:?}")
    };
    let [(x, y)] = plan.corners()[..] else {
        panic!("{plan:?}")
    };
    assert_eq!(plan.ring_lengths, [1]);
    // Halved as often as it can be, and the other coordinates to nothing.
    assert!((FAR..2 * FAR).contains(&x), "{smallest:?}");
    assert_eq!(query.x, x);
    assert!(query.y.abs() <= 1 && y.abs() <= 1, "{smallest:?}");
}

/// Whether two moves of different corners are undone one after the other.
fn undoes_two_corners(session: &Session) -> bool {
    let mut model = Model::new(session.case.plan.clone(), session.undo_rows);
    let (mut moved, mut undone) = (Vec::new(), None);
    for &call in &session.calls {
        if model.call(call).is_err() {
            continue;
        }
        match call {
            Call::Move { corner, .. } => {
                moved.push(corner);
                undone = None;
            }
            Call::Undo => {
                let corner = moved.pop();
                if undone.is_some() && undone != corner {
                    return true;
                }
                undone = corner;
            }
        }
    }
    false
}

#[test]
fn an_engine_that_loses_the_second_undo_of_another_corner() {
    let generated = (0..200).map(|number| sessions::session(SEED, number, SIZE, 40, 8));
    let smallest = smallest(generated, undoes_two_corners);
    let Case { plan, queries } = &smallest.case;
    assert_eq!(queries.len(), 0);
    assert_eq!(plan.coordinates.len() / 2, 2, "{smallest:?}");
    let [
        Call::Move { corner: a, .. },
        Call::Move { corner: b, .. },
        Call::Undo,
        Call::Undo,
    ] = smallest.calls[..]
    else {
        panic!("{smallest:?}")
    };
    assert_eq!(a + b, 1);
    assert_eq!(smallest.undo_rows, 2);
}
