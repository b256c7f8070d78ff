//! Plans written as Well-Known Text: the text against the writer that is written from document 02's R-1 alone, read again as the plan that it
//! came from; each refusal under its condition, in order, with nothing written; and outputs of every length, in guarded memory.

use capi::due::{MOST_CORNERS, MOST_RINGS};
use capi::guard::{self, Side};
use capi::lent::Trials;
use capi::reader::LONGEST;
use capi::wkt::read_wkt;
use capi::wkt::trials::Writings;
use capi::wkt::writer::{writable, write};
use plans::generate::{self, SEED, Size};
use plans::plan::{GRID_LIMIT, Kind, Plan, Polygon};
use plans::random::Random;
use plans::small;
use std::collections::BTreeMap;

/// No thousand calls take so many seconds.
const SECONDS: u32 = 120;

/// Plans that are written, and how often each refusal came up; 0 is none.
struct Written {
    writings: Writings,
    number: usize,
    answers: BTreeMap<u64, usize>,
}

impl Written {
    fn new() -> Written {
        guard::watch(SECONDS);
        Written {
            writings: Writings::default(),
            number: 0,
            answers: BTreeMap::new(),
        }
    }

    /// Writes a plan, as one of this kind, to an output of this length, against one of its pages and the other one in turn.
    fn write(&mut self, kind: u64, plan: &Plan, room: usize) -> Result<Vec<u8>, (u64, u64)> {
        self.number += 1;
        guard::trying(self.number, SECONDS);
        let side = [Side::Before, Side::After][self.number % 2];
        let written = self.writings.write(kind, plan, room, side);
        let refusal = written.as_ref().map_or_else(|&(refusal, _)| refusal, |_| 0);
        *self.answers.entry(refusal).or_default() += 1;
        written
    }

    /// Writes a list to outputs that are just long enough, longer, empty, and too short by one; its text is the second writer's.
    fn write_with_all_room(&mut self, plan: &Plan) -> Vec<u8> {
        let text = write(plan);
        for room in [text.len() + 1, text.len()] {
            let written = self.write(Kind::List as u64, plan, room);
            assert_eq!(written.as_ref(), Ok(&text));
        }
        for room in [text.len() - 1, 0] {
            assert_eq!(self.write(Kind::List as u64, plan, room), Err((11, 6)));
        }
        text
    }
}

const PLANS: usize = 1_500;

const SIZE: Size = Size {
    corners: 60,
    rings: 12,
};

/// Every so many plans one is larger: a number that shares no divisor with that of the families.
const LARGER_EVERY: usize = 25;
const LARGER_SIZE: Size = Size {
    corners: 600,
    rings: 60,
};

/// Each plan as it is, a tree or with an empty ring too, and then as a list without one, which is read again as the plan that it came from.
#[test]
fn generated_plans_are_read_again_as_they_were() {
    let mut written = Written::new();
    let mut trials = Trials::new(read_wkt);
    for number in 0..PLANS {
        let random = &mut Random::new(SEED, number as u64);
        let larger = number.is_multiple_of(LARGER_EVERY);
        let size = if larger { LARGER_SIZE } else { SIZE };
        let plan = generate::plan(random, number, size);
        let text = written.write(plan.kind as u64, &plan, LONGEST);
        let refused = plan.kind == Kind::Tree || plan.ring_lengths.contains(&0);
        assert_eq!(text == Err((22, 0)), refused);
        let plan = writable(&plan);
        let text = written.write_with_all_room(&plan);
        trials.read_with_all_room(&text, &Ok(plan));
    }
    for (refusal, least) in [(0, 2 * PLANS), (22, PLANS / 4), (11, 2 * PLANS)] {
        let count = written.answers[&refusal];
        assert!(count >= least, "{refusal}: {count} times");
    }
}

/// Every list of up to two corners on a small grid and some of three, in rings and polygons in every way; and trees and empty rings.
#[test]
fn small_plans_are_read_again_as_they_were() {
    let lists = (0..=2).flat_map(small::corner_lists);
    let lists = lists.chain(small::corner_lists(3).step_by(37));
    let mut written = Written::new();
    let mut trials = Trials::new(read_wkt);
    for plan in lists.flat_map(|corners| small::splits(&corners)) {
        let text = written.write(plan.kind as u64, &plan, LONGEST);
        match text {
            Ok(text) => trials.read(&text, &Ok(plan.clone()), [8; 3]),
            Err(refusal) => assert_eq!((refusal, plan.kind), ((22, 0), Kind::Tree)),
        }
        let empty = small::with_empty_ring(plan);
        let text = written.write(empty.kind as u64, &empty, LONGEST);
        assert_eq!(text, Err((22, 0)));
    }
    assert!(written.answers[&0] > 1_500);
}

/// Numbers of every length and sign, the ends of 64 bits among them: a plan out of range is written as any other.
#[test]
fn numbers_of_64_bits_are_written_exactly() {
    let mut numbers = vec![0, GRID_LIMIT + 1, i64::MAX, i64::MIN, i64::MIN + 1];
    let powers = (0..19).map(|digits| 10_i64.pow(digits));
    numbers.extend(powers.flat_map(|power| [power, power - 1, -power, 1 - power]));
    let corners = numbers.iter().zip(numbers.iter().rev());
    let ring: Vec<(i64, i64)> = corners.map(|(&x, &y)| (x, y)).collect();
    let plan = Plan::list(&[vec![ring]]);
    let text = Written::new().write_with_all_room(&plan);
    Trials::new(read_wkt).read_with_all_room(&text, &Ok(plan));
}

/// The list of these polygons, their last ring longer by small corners and a number of as many digits as make its text so long.
fn of_length(mut polygons: Vec<Polygon>, length: usize) -> Plan {
    let before = write(&Plan::list(&polygons)).len();
    let ring = polygons.last_mut().and_then(|rings| rings.last_mut());
    let ring = ring.expect("there is a ring");
    let (corners, digits) = ((length - before) / 5, (length - before) % 5);
    ring.extend(vec![(0, 0); corners - 1]);
    ring.push((0, 10_i64.pow(digits as u32)));
    Plan::list(&polygons)
}

/// 65,536 bytes are written, and one more is too many: of polygons, rings, corners and long numbers.
#[test]
fn a_text_of_one_byte_too_many_gets_1() {
    let one = vec![(0, 0)];
    let far = (i64::MIN, i64::MAX);
    let mut written = Written::new();
    for polygons in [
        vec![vec![one.clone()]; 4_600],
        vec![vec![one.clone(); 5_400]],
        vec![vec![one]],
        vec![vec![vec![far; 1_500]]],
        vec![vec![vec![far, far]; 100]; 5],
    ] {
        let longest = of_length(polygons.clone(), LONGEST);
        let text = written.write_with_all_room(&longest);
        assert_eq!(text.len(), LONGEST);
        Trials::new(read_wkt).read_with_all_room(&text, &Ok(longest));
        let longer = of_length(polygons, LONGEST + 1);
        for room in [0, LONGEST, LONGEST + 1, LONGEST + 2] {
            assert_eq!(written.write(0, &longer, room), Err((1, 0)));
        }
    }
}

/// A list of one square.
fn square() -> Plan {
    Plan::list(&[vec![vec![(0, 0), (10, 0), (10, 10), (0, 10)]]])
}

/// A list of one polygon of a long ring and an empty one, with a change: but for that it gets 22, and breaks all that comes after it too.
fn broken(change: impl FnOnce(&mut Plan)) -> Plan {
    let mut plan = Plan::list(&[vec![vec![(0, 0); LONGEST], Vec::new()]]);
    change(&mut plan);
    plan
}

/// Asserts by which number and table a plan is refused as one of these kinds, with no output.
fn assert_refused(kinds: &[u64], plan: &Plan, refusal: (u64, u64)) {
    let mut written = Written::new();
    for &kind in kinds {
        assert_eq!(written.write(kind, plan, 0), Err(refusal), "kind {kind}");
    }
}

/// A list, a tree, and numbers of no kind.
const KINDS: [u64; 4] = [0, 1, 2, u64::MAX];

/// 4 comes before 3, and both before all else, whatever the kind.
#[test]
fn counts_are_judged_first() {
    let many_rings = |count| {
        broken(|plan| {
            plan.ring_lengths.resize(count, 0);
            plan.coordinates.push(0);
        })
    };
    assert_refused(&KINDS, &many_rings(MOST_RINGS + 1), (4, 0));
    assert_refused(&KINDS, &many_rings(MOST_RINGS), (3, 0));
    // an odd list counts as half its length, rounded down
    let many_corners = |count| broken(|plan| plan.coordinates.resize(count, 0));
    assert_refused(&KINDS, &many_corners(2 * MOST_CORNERS + 2), (4, 0));
    assert_refused(&KINDS, &many_corners(2 * MOST_CORNERS + 1), (3, 0));
}

/// The polygon table is looked at in a list alone: a tree gets 22 in spite of it, and another kind 15.
#[test]
fn polygons_are_counted_in_a_list_alone() {
    let polygons = |count: usize| broken(|plan| plan.ring_counts = vec![1; count]);
    let none = broken(|plan| plan.ring_counts.push(0));
    for (plan, refusal) in [
        (polygons(MOST_RINGS + 1), (4, 0)),
        (polygons(3), (3, 0)),
        (polygons(1), (3, 0)),
        (polygons(0), (3, 0)),
        (none, (3, 0)),
        (polygons(2), (22, 0)),
    ] {
        assert_refused(&[0], &plan, refusal);
        assert_refused(&[1], &plan, (22, 0));
        assert_refused(&[2, 7, u64::MAX], &plan, (15, 0));
    }
}

/// 15, then 22, then 1, then 11: each plan breaks all that comes after its number too, as far as its kind can.
#[test]
fn refusals_come_in_order() {
    let long = broken(|plan| {
        plan.ring_lengths.pop();
        plan.ring_counts = vec![1];
    });
    for (kind, plan, refusal) in [
        (2, broken(|_| {}), (15, 0)),
        (1, broken(|_| {}), (22, 0)),
        (0, broken(|_| {}), (22, 0)),
        (0, long, (1, 0)),
        (0, square(), (11, 6)),
        (1, square(), (22, 0)),
        (2, square(), (15, 0)),
    ] {
        assert_refused(&[kind], &plan, refusal);
    }
}

/// Counts that do not fit, one at a time.
#[test]
fn counts_that_do_not_fit_get_3() {
    let mut written = Written::new();
    let changes: [fn(&mut Plan); 7] = [
        |plan| plan.coordinates.push(0),
        |plan| plan.ring_lengths[0] = 3,
        |plan| plan.ring_lengths[0] = usize::MAX,
        |plan| plan.ring_lengths.push(0),
        |plan| plan.ring_counts[0] = 2,
        |plan| plan.ring_counts.push(0),
        |plan| plan.ring_counts.clear(),
    ];
    for change in changes {
        let mut plan = square();
        change(&mut plan);
        assert_eq!(written.write(0, &plan, LONGEST), Err((3, 0)), "{plan:?}");
    }
}

/// At the ceilings of corners, rings and polygons there is no plan whose text is short enough.
#[test]
fn the_largest_plans_get_1() {
    let mut written = Written::new();
    for polygons in [
        vec![vec![vec![(i64::MIN, i64::MIN); MOST_CORNERS]]],
        vec![vec![vec![(0, 0); MOST_CORNERS / MOST_RINGS]; MOST_RINGS]],
        vec![vec![vec![(0, 0)]]; MOST_RINGS],
    ] {
        let plan = Plan::list(&polygons);
        assert_eq!(written.write(0, &plan, LONGEST), Err((1, 0)));
    }
}
