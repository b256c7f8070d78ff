//! Where a plan lies: turned over, moved, stretched to the range's ends or beyond them, and with an
//! outline far away that changes which ray is taken.

use crate::plan::{GRID_LIMIT, Kind, Plan, Point, Ring};
use crate::random::Random;
use crate::rings;

type Placing = fn(&mut Random, &mut Plan);

/// What is done to a plan's coordinates; most plans stay small.
const PLACINGS: [Placing; 12] = [
    stay,
    stay,
    stay,
    stay,
    stay,
    move_a_little,
    move_a_little,
    move_a_little,
    stretch,
    stretch_and_jitter,
    fill_range,
    move_to_end_of_range,
];

/// Places a plan.
pub fn place(random: &mut Random, mut plan: Plan) -> Plan {
    turn_over(random, &mut plan);
    random.pick(&PLACINGS)(random, &mut plan);
    if random.one_in(3) {
        plan = with_far_outline(random, &plan);
    }
    if random.one_in(14) {
        leave_range(random, &mut plan);
    }
    plan
}

fn map_corners(plan: &mut Plan, map: impl FnMut(Point) -> Point) {
    let corners = plan.corners().into_iter().map(map);
    plan.coordinates = corners.flat_map(|(x, y)| [x, y]).collect();
}

/// Mirrors the plan at the axes and at their bisector, so that each ray is as likely as the others.
fn turn_over(random: &mut Random, plan: &mut Plan) {
    let (across, upside_down, swapped) = (random.one_in(2), random.one_in(2), random.one_in(2));
    let signed = |coordinate: i64, negative| if negative { -coordinate } else { coordinate };
    map_corners(plan, |(x, y)| {
        let (x, y) = (signed(x, across), signed(y, upside_down));
        if swapped { (y, x) } else { (x, y) }
    });
}

fn stay(_: &mut Random, _: &mut Plan) {}

fn move_a_little(random: &mut Random, plan: &mut Plan) {
    let (dx, dy) = (random.between(-20, 20), random.between(-20, 20));
    map_corners(plan, |(x, y)| (x + dx, y + dy));
}

/// Multiplies all coordinates, so that lines through corners are kept.
fn stretch(random: &mut Random, plan: &mut Plan) {
    let (_, largest) = least_and_greatest(plan.coordinates.iter().map(|c| c.abs()));
    let factor = random.between(2, GRID_LIMIT / largest.max(1));
    map_corners(plan, |(x, y)| (x * factor, y * factor));
}

/// Multiplies all coordinates and moves them by one, so that corners lie next to lines.
fn stretch_and_jitter(random: &mut Random, plan: &mut Plan) {
    stretch(random, plan);
    let mut jitter = |c: i64| (c + random.between(-1, 1)).clamp(-GRID_LIMIT, GRID_LIMIT);
    map_corners(plan, |(x, y)| (jitter(x), jitter(y)));
}

/// Stretches the plan over the whole range, both ends included.
fn fill_range(_: &mut Random, plan: &mut Plan) {
    fill(plan, -GRID_LIMIT, GRID_LIMIT);
}

/// Stretches the plan so that its least x and y are `low`, its greatest x and y `high`.
fn fill(plan: &mut Plan, low: i64, high: i64) {
    let (xs, ys) = (axis(plan, 0), axis(plan, 1));
    let room = i128::from(high) - i128::from(low);
    let spread = |c: i64, (least, greatest): (i64, i64)| {
        let part = i128::from(c - least) * room / i128::from(greatest - least).max(1);
        (i128::from(low) + part) as i64
    };
    map_corners(plan, |(x, y)| (spread(x, xs), spread(y, ys)));
}

/// Moves the plan, in its own size, to an end of the range in x and in y.
fn move_to_end_of_range(random: &mut Random, plan: &mut Plan) {
    let mut distance = |(least, greatest): (i64, i64)| {
        if random.one_in(2) {
            GRID_LIMIT - greatest
        } else {
            -GRID_LIMIT - least
        }
    };
    let (dx, dy) = (distance(axis(plan, 0)), distance(axis(plan, 1)));
    map_corners(plan, |(x, y)| (x + dx, y + dy));
}

/// Least and greatest coordinate on one axis.
fn axis(plan: &Plan, first: usize) -> (i64, i64) {
    least_and_greatest(plan.coordinates.iter().copied().skip(first).step_by(2))
}

fn least_and_greatest(numbers: impl Iterator<Item = i64> + Clone) -> (i64, i64) {
    let least = numbers.clone().min().unwrap_or(0);
    let greatest = numbers.max().unwrap_or(0);
    (least, greatest)
}

/// Adds an outline far from the rest of the plan, before or after its other parts.
fn with_far_outline(random: &mut Random, plan: &Plan) -> Plan {
    let far = far_outline(random);
    let first = random.one_in(2);
    match plan.kind {
        Kind::List => Plan::list(&with_part(plan.polygons(), vec![far], first)),
        Kind::Tree => Plan::tree(&with_part(plan.rings(), far, first)),
    }
}

fn far_outline(random: &mut Random) -> Ring {
    let distance = random.pick(&[50, 1_000, 1 << 20, GRID_LIMIT - 20]);
    let sides = [-distance, 0, distance];
    let (x, y) = (random.pick(&sides), random.pick(&sides));
    let outline = rings::small_ring(random, 4);
    rings::shifted(&outline, x, y)
}

fn with_part<T>(mut parts: Vec<T>, part: T, first: bool) -> Vec<T> {
    let place = if first { 0 } else { parts.len() };
    parts.insert(place, part);
    parts
}

/// Puts one coordinate, or the whole plan, out of range.
fn leave_range(random: &mut Random, plan: &mut Plan) {
    if random.one_in(4) {
        fill(plan, i64::MIN, i64::MAX);
    } else if !plan.coordinates.is_empty() {
        let place = random.below(plan.coordinates.len());
        plan.coordinates[place] = random.pick(&[
            GRID_LIMIT + 1,
            GRID_LIMIT + 1,
            -GRID_LIMIT - 1,
            -GRID_LIMIT - 1,
            2 * GRID_LIMIT,
            i64::MAX,
            i64::MIN,
        ]);
    }
}
