//! Plans with corrections to make one after another, and points to ask after each of them.

use crate::generate::{self, Case, Size};
use crate::model::{Call, Model};
use crate::plan::{GRID_LIMIT, Plan, Point};
use crate::points;
use crate::random::Random;

/// A plan, the corrections that are made to it, and the points that are asked of it.
#[derive(Clone, Debug)]
pub struct Session {
    pub case: Case,
    /// The rows that are lent for undo records.
    pub undo_rows: usize,
    pub calls: Vec<Call>,
}

impl Session {
    /// A case without corrections.
    pub fn of(case: Case) -> Session {
        Session {
            case,
            undo_rows: 0,
            calls: Vec::new(),
        }
    }
}

/// Corrections come in runs of so many, mostly moves and mostly undos in turn, so that all moves are often undone.
const RUN: usize = 8;

/// The session of a number, with so many corrections and points.
pub fn session(seed: u64, number: usize, size: Size, calls: usize, queries: usize) -> Session {
    let mut random = Random::new(!seed, number as u64);
    let plan = generate::plan(&mut random, number, size);
    session_of(&mut random, plan, calls, queries)
}

/// Some corrections of a plan, and points about it as it is at first and as it is at last.
pub fn session_of(random: &mut Random, plan: Plan, calls: usize, queries: usize) -> Session {
    let undo_rows = random.pick(&[0, 1, 2, 3, 8, 8, 64, 64]);
    let mut model = Model::new(plan.clone(), undo_rows);
    let calls = corrections(random, &mut model, calls);
    let mut asked = points::queries(random, &plan, queries / 2);
    asked.extend(points::queries(random, model.plan(), queries - queries / 2));
    Session {
        case: Case {
            plan,
            queries: asked,
        },
        undo_rows,
        calls,
    }
}

/// So many corrections, one after another; the book makes each of them too.
pub fn corrections(random: &mut Random, model: &mut Model, count: usize) -> Vec<Call> {
    let call = |number: usize| {
        let mostly_moves = (number / RUN).is_multiple_of(2);
        let call = if mostly_moves == random.one_in(5) {
            Call::Undo
        } else {
            some_move(random, model.plan())
        };
        // Refused or not, the next correction is of the plan that stands.
        let _ = model.call(call);
        call
    };
    (0..count).map(call).collect()
}

/// A move of some corner, or of one that there is not, to some place.
pub fn some_move(random: &mut Random, plan: &Plan) -> Call {
    let corners = plan.coordinates.len() / 2;
    let corner = if corners == 0 || random.one_in(12) {
        random.pick(&[corners, corners + 1, 1 << 20, usize::MAX])
    } else {
        random.below(corners)
    };
    Call::Move {
        corner,
        to: new_place(random, plan, corner),
    }
}

/// The place of a corner, or the origin where there is no such corner.
fn place(plan: &Plan, corner: usize) -> Point {
    let (corners, _) = plan.coordinates.as_chunks::<2>();
    corners.get(corner).map_or((0, 0), |&[x, y]| (x, y))
}

/// A new place for a corner that is at a place of a plan.
type NewPlace = fn(&mut Random, &Plan, Point) -> Point;

const NEW_PLACES: [NewPlace; 11] = [
    same,
    beside,
    beside,
    beside,
    at_corner,
    at_corner,
    in_line_with_corners,
    below_corner,
    anywhere,
    at_end_of_range,
    out_of_range,
];

/// Where a corner is put.
fn new_place(random: &mut Random, plan: &Plan, corner: usize) -> Point {
    random.pick(&NEW_PLACES)(random, plan, place(plan, corner))
}

fn same(_: &mut Random, _: &Plan, old: Point) -> Point {
    old
}

fn beside(random: &mut Random, _: &Plan, (x, y): Point) -> Point {
    let mut near = |c: i64| c.saturating_add(random.between(-2, 2));
    (near(x), near(y))
}

fn at_corner(random: &mut Random, plan: &Plan, _: Point) -> Point {
    let corners = plan.coordinates.len() / 2;
    place(plan, random.below(corners.max(1)))
}

fn in_line_with_corners(random: &mut Random, plan: &Plan, old: Point) -> Point {
    let (x, _) = at_corner(random, plan, old);
    let (_, y) = at_corner(random, plan, old);
    (x, y)
}

fn below_corner(random: &mut Random, plan: &Plan, old: Point) -> Point {
    (at_corner(random, plan, old).0, old.1)
}

fn anywhere(random: &mut Random, _: &Plan, _: Point) -> Point {
    let mut coordinate = || random.between(-GRID_LIMIT, GRID_LIMIT);
    (coordinate(), coordinate())
}

fn at_end_of_range(random: &mut Random, _: &Plan, old: Point) -> Point {
    with_one_of(random, old, &[GRID_LIMIT, -GRID_LIMIT])
}

fn out_of_range(random: &mut Random, _: &Plan, old: Point) -> Point {
    let beyond = [GRID_LIMIT + 1, -GRID_LIMIT - 1, i64::MAX, i64::MIN];
    with_one_of(random, old, &beyond)
}

/// The place with one of the numbers for its x or its y.
fn with_one_of(random: &mut Random, (x, y): Point, numbers: &[i64]) -> Point {
    let number = random.pick(numbers);
    random.pick(&[(number, y), (x, number)])
}
