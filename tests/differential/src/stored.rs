//! Cases with the original's replies as text, one case a line, for programs that replay them.
//!
//! A line holds, in decimal numbers parted by single spaces: the kind and form; the number of coordinates and
//! the coordinates; the number of rings and their lengths; the number of polygons and their ring
//! counts; the number of queries and, for each, its mode, x, y and reply. A last line holds -1.

use crate::oracle;
use plans::generate::{self, Size};
use plans::named::named_cases;
use plans::plan::{GRID_LIMIT, Kind, Mode, Plan, Query, within};
use std::fmt::{self, Display, Formatter};

/// Generated cases of one size, after the named ones.
struct Batch {
    plans: usize,
    size: Size,
    queries: usize,
}

/// Many small plans, some of hundreds of corners and a few of thousands, with room for a far outline.
const BATCHES: [Batch; 3] = [
    Batch {
        plans: 2_800,
        size: Size {
            corners: 48,
            rings: 10,
        },
        queries: 6,
    },
    Batch {
        plans: 140,
        size: Size {
            corners: 480,
            rings: 48,
        },
        queries: 16,
    },
    Batch {
        plans: 56,
        size: Size {
            corners: 3_900,
            rings: 400,
        },
        queries: 32,
    },
];

/// What no stored case exceeds.
const MOST_COORDINATES: usize = 8192;
const MOST_PARTS: usize = 512;
const MOST_QUERIES: usize = 64;

/// How many plans and replies of each sort a stored text holds.
#[derive(Default)]
pub struct Summary {
    plans: [usize; 2],
    out_of_range: usize,
    corner_counts: Vec<usize>,
    replies: [[usize; 3]; 2],
}

/// All stored cases of a seed: the named ones, then generated ones.
pub fn text(seed: u64) -> (String, Summary) {
    let mut text = String::new();
    let mut summary = Summary::default();
    let mut store = |plan: &Plan, queries: &[Query]| {
        let replies = oracle::replies(plan, queries);
        check_size(plan, queries);
        summary.count(plan, queries, &replies);
        text.push_str(&line(plan, queries, &replies));
        text.push('\n');
    };
    for case in named_cases() {
        let queries: Vec<Query> = case.stated.iter().map(|&(query, _)| query).collect();
        store(&case.plan, &queries);
    }
    let mut number = 0;
    for batch in &BATCHES {
        for _ in 0..batch.plans {
            let case = generate::case(seed, number, batch.size, batch.queries);
            store(&case.plan, &case.queries);
            number += 1;
        }
    }
    text.push_str("-1\n");
    (text, summary)
}

fn check_size(plan: &Plan, queries: &[Query]) {
    assert!(plan.coordinates.len() <= MOST_COORDINATES);
    assert!(plan.ring_lengths.len() <= MOST_PARTS);
    assert!(plan.ring_counts.len() <= MOST_PARTS);
    assert!(queries.len() <= MOST_QUERIES);
}

/// One case as a line of text, without its end: coordinates as steps from corner to corner where that is shorter.
fn line(plan: &Plan, queries: &[Query], replies: &[u8]) -> String {
    let plain = line_with(
        plan.kind as usize,
        &plan.coordinates,
        plan,
        queries,
        replies,
    );
    let Some(steps) = steps(&plan.coordinates) else {
        return plain;
    };
    let stepped = line_with(plan.kind as usize + 2, &steps, plan, queries, replies);
    if stepped.len() < plain.len() {
        stepped
    } else {
        plain
    }
}

/// Each coordinate less the one two places before it, where all of them are in range.
fn steps(coordinates: &[i64]) -> Option<Vec<i64>> {
    let mut before = [0, 0];
    let mut steps = Vec::new();
    for (place, &coordinate) in coordinates.iter().enumerate() {
        if !within(coordinate, GRID_LIMIT) {
            return None;
        }
        steps.push(coordinate - before[place % 2]);
        before[place % 2] = coordinate;
    }
    let in_range = steps.iter().all(|&step| within(step, GRID_LIMIT));
    in_range.then_some(steps)
}

fn line_with(
    form: usize,
    coordinates: &[i64],
    plan: &Plan,
    queries: &[Query],
    replies: &[u8],
) -> String {
    let mut fields = vec![form.to_string()];
    push_counted(&mut fields, coordinates);
    push_counted(&mut fields, &plan.ring_lengths);
    push_counted(&mut fields, &plan.ring_counts);
    fields.push(queries.len().to_string());
    for (Query { mode, x, y }, reply) in queries.iter().zip(replies) {
        fields.push(format!("{} {x} {y} {reply}", *mode as u8));
    }
    fields.join(" ")
}

fn push_counted<T: Display>(fields: &mut Vec<String>, numbers: &[T]) {
    fields.push(numbers.len().to_string());
    fields.extend(numbers.iter().map(T::to_string));
}

impl Summary {
    fn count(&mut self, plan: &Plan, queries: &[Query], replies: &[u8]) {
        self.plans[plan.kind as usize] += 1;
        self.out_of_range += usize::from(!plan.in_range());
        self.corner_counts.push(plan.corners().len());
        for (query, &reply) in queries.iter().zip(replies) {
            self.replies[query.mode as usize][usize::from(reply)] += 1;
        }
    }
}

impl Display for Summary {
    fn fmt(&self, f: &mut Formatter<'_>) -> fmt::Result {
        let [lists, trees] = [Kind::List, Kind::Tree].map(|kind| self.plans[kind as usize]);
        writeln!(f, "plans: {lists} lists, {trees} trees")?;
        writeln!(f, "plans out of range: {}", self.out_of_range)?;
        for bound in [8, 64, 256, 1024] {
            let above = self.corner_counts.iter().filter(|&&count| count > bound);
            writeln!(f, "plans of more than {bound} edges: {}", above.count())?;
        }
        for (name, mode) in [("grid", Mode::Grid), ("doubled", Mode::Doubled)] {
            let [outside, inside, boundary] = self.replies[mode as usize];
            writeln!(
                f,
                "{name}: {outside} outside, {inside} inside, {boundary} boundary"
            )?;
        }
        Ok(())
    }
}
