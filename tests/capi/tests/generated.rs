//! Generated plans as texts: as they are written, and damaged in every way.

use capi::damage::WAYS;
use capi::expected::checked_answers;
use capi::reader::read;
use capi::writer::{headers, write};
use plans::generate::{self, SEED, Size};
use plans::plan::{Kind, Plan};
use plans::points::grid_points;
use plans::random::Random;
use std::collections::BTreeMap;

const PLANS: usize = 2_000;

/// Plans small enough for damage to be felt.
const SIZE: Size = Size {
    corners: 100,
    rings: 20,
};

/// The points that are asked of each text.
const POINTS: usize = 8;

/// How often at least each thing that is counted has to come up.
const OFTEN: usize = 500;

/// How often things came up.
#[derive(Default)]
struct Tally {
    counts: BTreeMap<String, usize>,
}

impl Tally {
    fn add(&mut self, thing: String) {
        *self.counts.entry(thing).or_default() += 1;
    }

    fn assert_often(&self, thing: String) {
        let count = self.counts.get(&thing).copied().unwrap_or_default();
        assert!(count >= OFTEN, "{thing}: {count} times");
    }
}

/// A text of a plan: the header that it was written with, or the way in which it was damaged.
fn text_made(kind: Kind, how: &str) -> String {
    format!("text of a {kind:?}, {how}")
}

/// An answer to a text of a plan.
fn answer_given(kind: Kind, damaged: bool, answer: i64) -> String {
    let state = if damaged { "damaged" } else { "as written" };
    format!("answer {answer} to the text of a {kind:?}, {state}")
}

/// Asks points of the plan that the text holds, or of the written one where it holds none.
fn asked_answers(random: &mut Random, written: &Plan, text: &[u8]) -> Vec<i64> {
    let held = read(text);
    let plan = held.as_ref().unwrap_or(written);
    let points = grid_points(random, plan, POINTS);
    checked_answers(text, &points)
}

/// Asks points of a plan's text, and of that text damaged in each way.
fn ask_plan(random: &mut Random, plan: &Plan, tally: &mut Tally) {
    let kind = plan.kind;
    let header = random.pick(headers(kind));
    let text = write(plan, header);
    assert_eq!(read(&text).as_ref(), Ok(plan));
    tally.add(text_made(kind, header));
    for answer in asked_answers(random, plan, &text) {
        tally.add(answer_given(kind, false, answer));
    }
    for &(way, damage) in WAYS {
        let damaged = damage(random, &text);
        if damaged != text {
            tally.add(text_made(kind, way));
            for answer in asked_answers(random, plan, &damaged) {
                tally.add(answer_given(kind, true, answer));
            }
        }
    }
}

#[test]
fn generated_texts_are_answered_as_the_rules_say() {
    let mut tally = Tally::default();
    for number in 0..PLANS {
        let mut random = Random::new(SEED, number as u64);
        let plan = generate::plan(&mut random, number, SIZE);
        ask_plan(&mut random, &plan, &mut tally);
    }
    for kind in [Kind::List, Kind::Tree] {
        let headers = headers(kind).iter();
        let ways = WAYS.iter().map(|(way, _)| way);
        for how in headers.chain(ways) {
            tally.assert_often(text_made(kind, how));
        }
        for answer in [0, 1, 2] {
            tally.assert_often(answer_given(kind, false, answer));
        }
        for answer in [0, 1, 2, -2] {
            tally.assert_often(answer_given(kind, true, answer));
        }
    }
}
