//! The replies that document 01 states, to its cases written as texts and to its worked example.

use capi::entry::{answers, locate_text};
use capi::examples;
use capi::writer::{headers, write};
use plans::named::{NamedCase, named_cases};
use plans::plan::{Mode, Point};

/// The cases that document 01 asks on the grid.
const ON_GRID: &[&str] = &[
    "P1", "P2", "P3", "P4", "P5", "P6", "P7", "P8", "P9", "P10", "P12",
];

/// The points of a case that lie on the grid, with the stated replies.
fn stated_on_grid(case: &NamedCase) -> Vec<(Point, i64)> {
    let mut stated = Vec::new();
    for &(query, reply) in &case.stated {
        if query.mode == Mode::Grid {
            stated.push(((query.x, query.y), reply.into()));
        }
    }
    stated
}

#[test]
fn named_cases_get_their_stated_replies() {
    let mut named = Vec::new();
    for case in named_cases() {
        for (point, stated) in stated_on_grid(&case) {
            for header in headers(case.plan.kind) {
                let answer = locate_text(&write(&case.plan, header), point);
                assert_eq!(answer, stated, "{} at {point:?}", case.name);
            }
            named.push(case.name);
        }
    }
    assert!(ON_GRID.iter().all(|name| named.contains(name)));
}

#[test]
fn the_worked_example_gets_its_stated_replies() {
    let replies = answers(examples::LIST, &[(5, 5), (4, 5), (1, 5)]);
    assert_eq!(replies, [0, 2, 1]);
}

#[test]
fn the_worked_example_is_the_text_of_its_plan() {
    let is_square_with_hole = |case: &NamedCase| case.name == "P5";
    let case = named_cases().into_iter().find(is_square_with_hole);
    let plan = case.expect("P5 is a named case").plan;
    assert_eq!(write(&plan, "plan\tlist"), examples::LIST);
}
