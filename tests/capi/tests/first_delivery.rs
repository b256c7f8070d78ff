//! Tables of the first delivery, as it prepared and corrected them: every look-up, move, undo and list call of this delivery runs on them.
//! Open plans outlive deliveries, so the data stay as they are (`data/README.md`).

use capi::corrections::Correction;
use capi::prepared::{Prepared, node_count};
use capi::soundness::{self, Cuts};
use capi::stored::{self, LENT, LENT_COUNT, Stored};
use plans::model::{Call, Model, NOTHING_TO_UNDO, OUT_OF_RANGE_PLAN};
use plans::plan::{Kind, Mode, Plan, Query};
use plans::points;
use plans::random::Random;
use plans::reference;
use plans::sessions;

const TEXT: &str = include_str!("../data/first_delivery.txt");

/// What [`sum`] gives for the text as the first delivery wrote it.
const SUM: u64 = 7_478_074_420_339_921_059;

/// The points that are asked of each set.
const POINTS: usize = 40;

/// The corrections that are made to each set.
const CORRECTIONS: usize = 24;

const SEED: u64 = 20_261_117;

fn sets() -> Vec<Stored> {
    stored::read(TEXT).expect("the data can be read")
}

/// Each set with numbers of its own.
fn each_set(mut check: impl FnMut(&Stored, &mut Random)) {
    for (number, set) in sets().iter().enumerate() {
        check(set, &mut Random::new(SEED, number as u64));
    }
}

/// The plan that stands in a set's tables.
fn standing(set: &Stored) -> Plan {
    set.book().0
}

/// The book as this delivery finds it: the plan that stands, and the records that were left.
fn model_of(set: &Stored) -> Model {
    let rows = set.left.tables.undo.len();
    Model::standing(standing(set), rows, set.records())
}

// ---- the data are what they were

/// The bytes of a text in one number (FNV-1a).
fn sum(text: &str) -> u64 {
    let step = |sum: u64, byte: u8| (sum ^ u64::from(byte)).wrapping_mul(0x0100_0000_01b3);
    text.bytes().fold(0xcbf2_9ce4_8422_2325, step)
}

#[test]
fn the_data_are_those_of_the_first_delivery() {
    assert_eq!(
        sum(TEXT),
        SUM,
        "data of the first delivery are never written anew"
    );
    let sets = sets();
    let written: Vec<String> = sets.iter().map(Stored::to_string).collect();
    let again = stored::read(&written.join("\n")).expect("what is written can be read");
    assert_eq!(again, sets);
}

/// A property of a set, and how many have it at least.
type Class = (&'static str, usize, fn(&Stored) -> bool);

const CLASSES: [Class; 16] = [
    ("sets", 300, |_| true),
    ("lists", 100, |set| set.handed.kind == Kind::List),
    ("trees", 100, |set| set.handed.kind == Kind::Tree),
    ("of one ring", 50, |set| set.handed.ring_lengths.len() == 1),
    ("of ten rings or more", 50, |set| {
        set.handed.ring_lengths.len() >= 10
    }),
    ("with an empty ring", 30, |set| {
        set.handed.ring_lengths.contains(&0)
    }),
    ("without a corner", 3, |set| {
        set.handed.coordinates.is_empty()
    }),
    ("of one corner", 2, |set| set.handed.coordinates.len() == 2),
    ("of 5,000 corners", 4, |set| {
        set.handed.coordinates.len() == 10_000
    }),
    ("out of range", 8, |set| set.left.state.out_of_range == 1),
    ("just prepared", 30, |set| set.calls.is_empty()),
    ("with standing corrections", 100, |set| {
        standing(set) != set.handed
    }),
    ("with undo records", 120, |set| {
        set.left.state.undo_depth > 0
    }),
    ("with records of moves in place", 80, |set| {
        set.records_in_place() > 0
    }),
    ("with a full undo table", 20, |set| {
        set.left.state.undo_depth > 0
            && set.left.state.undo_depth as usize == set.left.tables.undo.len()
    }),
    ("with longer tables than the plan needs", 80, |set| {
        set.left.tables.edges.len() > set.left.state.corners as usize
    }),
];

#[test]
fn every_class_is_among_the_data() {
    let sets = sets();
    for (name, least, has) in CLASSES {
        let count = sets.iter().filter(|set| has(set)).count();
        println!("{count} {name}");
        assert!(count >= least, "{count} {name}");
    }
}

// ---- what was left is sound

#[test]
fn tables_are_sound_and_hold_what_the_calls_came_to() {
    each_set(|set, _| {
        let (plan, records) = set.book();
        let Prepared {
            state,
            tables,
            nodes,
        } = &set.left;
        assert_eq!(set.records(), records);
        assert_eq!(state.out_of_range, u64::from(!plan.in_range()));
        if plan.in_range() {
            assert_eq!(soundness::check_tables(*state, tables), Ok(plan));
            assert_eq!(*nodes, node_count(state.corners as usize));
        } else {
            assert_eq!(*nodes, 0);
            assert!(tables.corners.starts_with(&plan.coordinates));
            assert!(tables.boxes.iter().all(|&row| row == [LENT; 4]));
            assert!(tables.parts.iter().all(|&row| row == [LENT_COUNT; 3]));
            assert!(tables.edges.iter().all(|&edge| edge == LENT_COUNT));
        }
    });
}

// ---- look-ups

/// Asks points of a plan that stands in tables, through the boxes and ring by ring.
fn check_look_ups(random: &mut Random, plan: &Plan, prepared: &Prepared, count: usize) {
    let queries = points::queries(random, plan, count);
    let due = reference::replies(plan, &queries);
    for (&query, reply) in queries.iter().zip(due) {
        assert_eq!(
            prepared.locate(query),
            reply.into(),
            "{query:?} of {plan:?}"
        );
        let by_rings = prepared.locate_by_rings(query);
        assert_eq!(by_rings, reply.into(), "{query:?} of {plan:?}");
    }
}

#[test]
fn every_look_up_gets_the_reply_of_the_rules() {
    each_set(|set, random| check_look_ups(random, &standing(set), &set.left, POINTS));
}

/// The listed points as a list call takes them.
fn coordinates(points: &[Query]) -> Vec<i64> {
    points.iter().flat_map(|point| [point.x, point.y]).collect()
}

#[test]
fn list_calls_find_the_first_point_that_is_not_outside() {
    let (mut found, mut none) = (0, 0);
    each_set(|set, random| {
        let plan = standing(set);
        let mut points = points::queries(random, &plan, 2 * POINTS);
        points.retain(|point| point.mode == Mode::Grid);
        let replies = reference::replies(&plan, &points);
        let due = replies.iter().position(|&reply| reply != 0);
        assert_eq!(
            set.left.first_not_outside(&coordinates(&points)),
            Ok(due),
            "{plan:?}"
        );
        let outside: Vec<Query> = points
            .iter()
            .zip(&replies)
            .filter(|(_, reply)| **reply == 0)
            .map(|(point, _)| *point)
            .collect();
        let mut outside = coordinates(&outside);
        assert_eq!(set.left.first_not_outside(&outside), Ok(None), "{plan:?}");
        outside.push(0);
        assert_eq!(set.left.first_not_outside(&outside), Err(3));
        found += usize::from(due.is_some_and(|place| place > 0));
        none += usize::from(due.is_none());
    });
    assert!(
        found >= 100 && none >= 20,
        "{found} lists begin with a point outside, {none} have no other"
    );
}

// ---- corrections

#[test]
fn undos_lead_back_to_the_tables_first_prepared() {
    each_set(|set, random| {
        let first = set.as_prepared();
        let mut now = set.left.clone();
        for (corner, (x, y)) in set.records().into_iter().rev() {
            assert_eq!(now.correct(Call::Undo), Ok(()));
            assert_eq!(now.tables.corners[2 * corner..2 * corner + 2], [x, y]);
        }
        assert_eq!(now, first);
        let empty = if set.handed.in_range() {
            NOTHING_TO_UNDO
        } else {
            OUT_OF_RANGE_PLAN
        };
        assert_eq!(now.correct(Call::Undo), Err(empty));
        assert_eq!(now, first);
        if set.handed.in_range() {
            let checked = soundness::check(&set.handed, &now, Cuts::AsPrepared);
            assert_eq!(checked, Ok(()));
        }
        check_look_ups(random, &set.handed, &now, 8);
    });
}

/// Makes corrections to a set's tables, and holds each to the book and the look-ups after it to the rules.
fn check_corrections(set: &Stored, random: &mut Random) -> (usize, usize) {
    let first = set.as_prepared();
    let calls = sessions::corrections(random, &mut model_of(set), CORRECTIONS);
    let mut model = model_of(set);
    let mut now = set.left.clone();
    let (mut moves, mut undos) = (0, 0);
    for call in calls {
        let correction = Correction {
            call,
            first: &first,
            before: now.clone(),
        };
        let answer = now.correct(call);
        let due = model.call(call);
        assert_eq!(
            correction.check(answer, due, &now, &model),
            Ok(()),
            "{call:?} in {}",
            set.sort
        );
        check_look_ups(random, model.plan(), &now, 4);
        match (due, call) {
            (Ok(()), Call::Undo) => undos += 1,
            (Ok(()), _) => moves += 1,
            _ => {}
        }
    }
    (moves, undos)
}

#[test]
fn moves_and_undos_are_answered_as_the_correction_book_says() {
    let (mut moves, mut undos) = (0, 0);
    each_set(|set, random| {
        let (moved, undone) = check_corrections(set, random);
        moves += moved;
        undos += undone;
    });
    assert!(
        moves >= 1_000 && undos >= 1_000,
        "{moves} moves, {undos} undos"
    );
}
