//! Lists of 600 calls on a plan of 300 squares, as a list and as a tree: moves, undos and look-ups on both grids, refused ones among them,
//! with an undo table of 40 rows. One by one through the exports, beside the correction book, the rules and a plan prepared anew from the
//! corners as they stand; and the same list as a whole.

use capi::prepared::{Prepared, Tables};
use inside::calls::{self, locate_in_plan};
use inside::shapes::{listed, squares};
use plans::model::{Call, Model};
use plans::plan::{GRID_LIMIT, Mode, Plan, Query};
use plans::reference;

const CALLS: usize = 600;
const ROWS: usize = 40;
const ACCEPTED: i64 = 3;

/// A number that a place of an answer table has before a call is answered.
const UNANSWERED: i64 = -99;

/// What came: outside, inside, boundary, accepted, refused, and a number that every answer in its place enters.
type Came = [i64; 6];

fn next(number: i64) -> i64 {
    (number % (1 << 31) * 1_103_515_245 + 12_345) % (1 << 31)
}

/// A coordinate on the plan or a little beside it, and one in 32 out of range.
fn coordinate(number: i64) -> i64 {
    if number / (1 << 20) % 32 == 0 {
        GRID_LIMIT + 1
    } else {
        number / 4096 % 140
    }
}

/// The calls of a seed. Of eight three are moves, one is an undo, two are look-ups and two look-ups on the half-grid; one corner in 121 is none.
fn rows(seed: i64) -> Vec<[i64; 4]> {
    let mut number = next(seed);
    let row = |_| {
        let corner = next(number);
        let x = next(corner);
        let y = next(x);
        let kind = [0, 0, 0, 1, 2, 2, 3, 3][number as usize / 4096 % 8];
        number = next(y);
        [kind, corner / 4096 % 1210, coordinate(x), coordinate(y)]
    };
    (0..CALLS).map(row).collect()
}

/// A call that corrects the plan, or the point that one looks up.
fn correction([kind, corner, x, y]: [i64; 4]) -> Result<Call, Query> {
    match kind {
        0 => Ok(Call::Move {
            corner: corner as usize,
            to: (x, y),
        }),
        1 => Ok(Call::Undo),
        2 => Err(Query::grid(x, y)),
        _ => Err(Query::doubled(x, y)),
    }
}

/// Answers one call through the exports, held to the book and the rules.
fn answer(now: &mut Prepared, book: &mut Model, row: [i64; 4]) -> i64 {
    match correction(row) {
        Ok(call) => {
            let due = book.call(call);
            assert_eq!(now.correct(call), due, "{call:?}");
            due.map_or_else(|refusal| -(refusal as i64), |()| ACCEPTED)
        }
        Err(query) => now.locate(query),
    }
}

/// The point that a call names (an undo names none), on both grids, through the boxes and ring by ring: in the tables as they stand, in the
/// plan as it stands and in one prepared anew from it.
fn check_point(now: &Prepared, book: &Model, [kind, _, x, y]: [i64; 4]) -> [i64; 2] {
    let (x, y) = if kind == 1 { (50, 40) } else { (x, y) };
    let queries = [Mode::Grid, Mode::Doubled].map(|mode| Query { mode, x, y });
    let replies = reference::replies(book.plan(), &queries);
    let anew = Prepared::new(book.plan());
    for (query, &reply) in queries.into_iter().zip(&replies) {
        let reply = reply.into();
        assert_eq!(now.locate(query), reply, "{query:?}");
        assert_eq!(now.locate_by_rings(query), reply, "{query:?}");
        assert_eq!(anew.locate(query), reply, "{query:?}");
        assert_eq!(anew.locate_by_rings(query), reply, "{query:?}");
        assert_eq!(locate_in_plan(book.plan(), query), reply, "{query:?}");
    }
    [replies[0].into(), replies[1].into()]
}

fn came(answers: &[i64]) -> Came {
    let number = |wanted: fn(i64) -> bool| answers.iter().filter(|&&a| wanted(a)).count() as i64;
    let mark = |mark, answer: &i64| (mark * 31 + answer.abs()) % 1_000_003;
    [
        number(|a| a == 0),
        number(|a| a == 1),
        number(|a| a == 2),
        number(|a| a == ACCEPTED),
        number(|a| a < 0),
        answers.iter().fold(0, mark),
    ]
}

fn lent(plan: &Plan) -> Tables {
    Tables {
        undo: vec![[i64::MIN; 3]; ROWS],
        ..Tables::for_plan(plan)
    }
}

fn run(plan: &Plan, seed: i64) -> Came {
    let rows = rows(seed);
    let first = Prepared::with_undo(plan, ROWS).expect("the plan is accepted");
    let mut now = first.clone();
    let mut book = Model::new(plan.clone(), ROWS);
    let mut answers = Vec::new();
    for &row in &rows {
        let answered = answer(&mut now, &mut book, row);
        let [grid, half] = check_point(&now, &book, row);
        match row[0] {
            2 => assert_eq!(answered, grid),
            3 => assert_eq!(answered, half),
            _ => {}
        }
        answers.push(answered);
    }
    check_replay(plan, &rows, &answers, &now);
    while now.correct(Call::Undo).is_ok() {}
    now.tables.undo.clone_from(&first.tables.undo);
    assert_eq!(now, first, "all is undone");
    came(&answers)
}

/// The list as a whole gives the same answers and leaves the same tables; an answer table that is too short, or a corner table, gets 11 and
/// nothing is written.
fn check_replay(plan: &Plan, rows: &[[i64; 4]], answers: &[i64], left: &Prepared) {
    let mut tables = lent(plan);
    let mut given = vec![UNANSWERED; CALLS + 2];
    assert_eq!(calls::replay(plan, &mut tables, rows, &mut given), 0);
    assert_eq!(given[..CALLS], *answers);
    assert_eq!(given[CALLS..], [UNANSWERED; 2]);
    assert_eq!(tables, left.tables);
    let mut short = vec![UNANSWERED; CALLS - 1];
    let mut tables = lent(plan);
    assert_eq!(calls::replay(plan, &mut tables, rows, &mut short), 11);
    assert_eq!(tables, lent(plan));
    tables.corners.pop();
    let before = tables.clone();
    given.fill(UNANSWERED);
    assert_eq!(calls::replay(plan, &mut tables, rows, &mut given), 11);
    assert_eq!(tables, before);
    assert!(given.iter().chain(&short).all(|&a| a == UNANSWERED));
}

#[test]
fn lists_on_polygons() {
    let plan = listed(&squares(), 1);
    assert_eq!(run(&plan, 1), [194, 94, 26, 172, 114, 94_727]);
    assert_eq!(run(&plan, 2), [190, 76, 31, 174, 129, 794_623]);
}

#[test]
fn lists_on_a_tree() {
    let plan = Plan::tree(&squares());
    assert_eq!(run(&plan, 3), [190, 50, 58, 176, 126, 612_978]);
    assert_eq!(run(&plan, 4), [188, 51, 56, 192, 113, 94_656]);
}

/// A plan that is refused, and one that is out of range.
#[test]
fn other_plans() {
    let mut plan = listed(&squares(), 1);
    let rows = rows(1);
    let mut answers = vec![UNANSWERED; CALLS];
    plan.coordinates[7] = GRID_LIMIT + 1;
    let mut tables = lent(&plan);
    assert_eq!(calls::replay(&plan, &mut tables, &rows, &mut answers), 0);
    let due = rows.iter().map(|row| if row[0] < 2 { -12 } else { 0 });
    assert!(answers.iter().copied().eq(due));
    plan.coordinates.pop();
    let before = tables.clone();
    answers.fill(UNANSWERED);
    assert_eq!(calls::replay(&plan, &mut tables, &rows, &mut answers), 3);
    // the plan's own refusals come before the answer table's 11
    let (short, _) = answers.split_at_mut(CALLS - 1);
    assert_eq!(calls::replay(&plan, &mut tables, &rows, short), 3);
    plan.ring_counts = vec![1; 65_537];
    assert_eq!(calls::replay(&plan, &mut tables, &rows, short), 4);
    assert_eq!(tables, before);
    assert!(answers.iter().all(|&a| a == UNANSWERED));
}
