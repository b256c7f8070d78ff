//! The answers that are due: the text read by [`reader`], then the rules of [`reference`](mod@reference).

use crate::entry;
use crate::reader::{self, Refusal};
use plans::plan::{Plan, Point, Query};
use plans::reference;

/// The answers to several points, numbered as in item 11.
pub fn answers(text: &[u8], points: &[Point]) -> Vec<i64> {
    match reader::read(text) {
        Ok(plan) => replies(&plan, points),
        Err(Refusal::TooLong) => vec![-1; points.len()],
        Err(Refusal::Line(_)) => vec![-2; points.len()],
    }
}

fn replies(plan: &Plan, points: &[Point]) -> Vec<i64> {
    let queries: Vec<Query> = points.iter().map(|&(x, y)| Query::grid(x, y)).collect();
    let replies = reference::replies(plan, &queries);
    replies.into_iter().map(i64::from).collect()
}

/// The library's answers to several points, asserted to be those that are due.
pub fn checked_answers(text: &[u8], points: &[Point]) -> Vec<i64> {
    let given = entry::answers(text, points);
    let due = answers(text, points);
    assert_eq!(given, due, "{points:?} asked of {}", text.escape_ascii());
    given
}
