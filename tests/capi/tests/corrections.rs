//! Moves and undos through the exports: each answer, the tables after it, and the replies of the rules to the plan that then stands.

use capi::corrections::Correction;
use capi::exports::{Corrected, State};
use capi::prepared::{Prepared, Tables};
use plans::generate::{SEED, Size};
use plans::model::{Call, Model};
use plans::plan::{GRID_LIMIT, Plan, Point};
use plans::reference;
use plans::sessions::{self, Session};

const SESSIONS: usize = 400;
const CORRECTIONS: usize = 32;
const POINTS: usize = 12;

/// The most undo records, however many rows are lent.
const RECORDS: usize = 65_536;

/// Plans that are often cut more than once.
const SIZE: Size = Size {
    corners: 200,
    rings: 40,
};

/// A list of one square.
fn square() -> Plan {
    let ring = vec![(0, 0), (10, 0), (10, 10), (0, 10)];
    Plan::list(&[vec![ring]])
}

fn prepared(plan: &Plan, rows: usize) -> Prepared {
    Prepared::with_undo(plan, rows).expect("the plan is accepted")
}

fn move_to(corner: usize, to: Point) -> Call {
    Call::Move { corner, to }
}

/// Makes the corrections of a session, checks each, and counts how often all was undone.
fn check_session(session: &Session) -> usize {
    let plan = &session.case.plan;
    let first = prepared(plan, session.undo_rows);
    let mut model = Model::new(plan.clone(), session.undo_rows);
    let mut now = first.clone();
    let mut undone = 0;
    for &call in &session.calls {
        let correction = Correction {
            call,
            first: &first,
            before: now.clone(),
        };
        let answer = now.correct(call);
        let due = model.call(call);
        let checked = correction.check(answer, due, &now, &model);
        assert_eq!(checked, Ok(()), "{call:?} in {session:?}");
        undone += usize::from(due.is_ok() && model.depth() == 0);
        let replies = reference::replies(model.plan(), &session.case.queries);
        for (&query, reply) in session.case.queries.iter().zip(replies) {
            assert_eq!(now.locate(query), reply.into(), "{query:?}, {session:?}");
            let by_rings = now.locate_by_rings(query);
            assert_eq!(by_rings, reply.into(), "{query:?}, {session:?}");
        }
    }
    undone
}

#[test]
fn corrections_are_answered_as_the_correction_book_says() {
    let session = |number| sessions::session(SEED, number, SIZE, CORRECTIONS, POINTS);
    let undone: usize = (0..SESSIONS)
        .map(|number| check_session(&session(number)))
        .sum();
    assert!(undone > SESSIONS, "all was undone {undone} times");
}

/// What a correction is answered, in tables that stay as they were where it is refused.
fn refused(prepared: &Prepared, call: Call) -> u64 {
    let mut after = prepared.clone();
    let answer = after.correct(call);
    if answer.is_err() {
        assert_eq!(after, *prepared, "a refusal wrote");
    }
    answer.err().unwrap_or_default()
}

#[test]
fn refusals_come_in_order() {
    let far = (GRID_LIMIT + 1, 0);
    let mut marked = square();
    marked.coordinates[0] = far.0;
    let marked = prepared(&marked, 0);
    assert_eq!(refused(&marked, move_to(9, far)), 12);
    assert_eq!(refused(&marked, Call::Undo), 12);
    let full = prepared(&square(), 0);
    assert_eq!(refused(&full, move_to(4, far)), 5);
    assert_eq!(refused(&full, move_to(usize::MAX, (0, 0))), 5);
    assert_eq!(refused(&full, move_to(3, far)), 6);
    assert_eq!(refused(&full, move_to(3, (0, -GRID_LIMIT - 1))), 6);
    assert_eq!(refused(&full, move_to(3, (GRID_LIMIT, -GRID_LIMIT))), 13);
    assert_eq!(refused(&full, Call::Undo), 14);
    let open = prepared(&square(), 1);
    assert_eq!(refused(&open, move_to(3, (GRID_LIMIT, -GRID_LIMIT))), 0);
}

#[test]
fn a_move_in_place_is_recorded() {
    let mut now = prepared(&square(), 1);
    assert_eq!(now.correct(move_to(2, (10, 10))), Ok(()));
    assert_eq!(now.state.undo_depth, 1);
    assert_eq!(now.tables.undo, [[2, 10, 10]]);
    assert_eq!(now.correct(move_to(2, (10, 10))), Err(13));
}

#[test]
fn no_more_than_65_536_moves_are_recorded() {
    let first = prepared(&square(), RECORDS + 4);
    let mut now = first.clone();
    for number in 0..RECORDS {
        let to = (number as i64 % 7, number as i64 % 5);
        assert_eq!(now.correct(move_to(number % 4, to)), Ok(()));
    }
    assert_eq!(now.correct(move_to(1, (1, 1))), Err(13));
    assert_eq!(now.tables.undo[RECORDS..], first.tables.undo[RECORDS..]);
    for _ in 0..RECORDS {
        assert_eq!(now.correct(Call::Undo), Ok(()));
    }
    assert_eq!(now.correct(Call::Undo), Err(14));
    now.tables.undo.clone_from(&first.tables.undo);
    assert_eq!(now, first);
}

#[test]
fn numbers_that_are_no_state_get_15_and_are_given_back() {
    let now = prepared(&square(), 3);
    let state = now.state;
    for wrong in [
        State { kind: 2, ..state },
        State {
            out_of_range: 2,
            ..state
        },
    ] {
        for call in [move_to(9, (GRID_LIMIT + 1, 0)), Call::Undo] {
            let mut tables = now.tables.clone();
            let refusal = 15;
            let due = Corrected {
                refusal,
                state: wrong,
            };
            assert_eq!(tables.correct(wrong, call), due);
            assert_eq!(tables, now.tables);
        }
    }
}

#[test]
fn tables_shorter_than_the_state_says_get_15() {
    let mut now = prepared(&square(), 3);
    assert_eq!(now.correct(move_to(1, (5, 5))), Ok(()));
    let shorten: [fn(&mut Tables); 5] = [
        |tables| tables.corners.truncate(7),
        |tables| tables.rings.clear(),
        |tables| tables.boxes.clear(),
        |tables| tables.parts.clear(),
        |tables| tables.edges.truncate(3),
    ];
    for change in shorten {
        let mut short = now.clone();
        change(&mut short.tables);
        assert_eq!(refused(&short, move_to(0, (1, 1))), 15);
        assert_eq!(refused(&short, Call::Undo), 15);
    }
    now.tables.undo.clear();
    assert_eq!(refused(&now, move_to(0, (1, 1))), 13);
    assert_eq!(refused(&now, Call::Undo), 15);
}

/// An undo whose latest record is this one, of a square with two moves made.
fn undone_by(record: [i64; 3]) -> u64 {
    let mut now = prepared(&square(), 2);
    assert_eq!(now.correct(move_to(1, (5, 5))), Ok(()));
    assert_eq!(now.correct(move_to(2, (7, 7))), Ok(()));
    now.tables.undo[1] = record;
    refused(&now, Call::Undo)
}

#[test]
fn a_latest_record_of_no_corner_or_of_a_place_out_of_range_gets_15() {
    let corners = 4;
    for corner in [corners, -1, i64::MIN, i64::MAX] {
        assert_eq!(undone_by([corner, 3, 3]), 15, "corner {corner}");
    }
    for far in [GRID_LIMIT + 1, -GRID_LIMIT - 1, i64::MIN, i64::MAX] {
        assert_eq!(undone_by([2, far, 3]), 15, "x {far}");
        assert_eq!(undone_by([2, 3, far]), 15, "y {far}");
    }
    for near in [GRID_LIMIT, -GRID_LIMIT] {
        assert_eq!(undone_by([corners - 1, near, near]), 0);
    }
}
