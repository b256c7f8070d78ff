//! Wrote `data/first_delivery.txt`, tables that the engine of the first delivery prepared and corrected, from a seed.
//!
//! It must not be run again with a later engine. Open plans outlive deliveries: the data show that tables of the first delivery are still
//! taken, which tables that a later engine makes cannot show. So it stops where the file is there. It is kept as it was made, and may stop
//! making the same: the lasting account of a set is its own plan and calls (`data/README.md`).

use capi::prepared::{Prepared, Tables};
use capi::stored::{LENT, LENT_COUNT, Stored};
use plans::generate::{self, Size};
use plans::model::{Call, Model};
use plans::plan::{GRID_LIMIT, Plan, Polygon, Ring};
use plans::random::Random;
use plans::sessions;
use std::error::Error;
use std::fs::File;
use std::io::{BufWriter, Write};

const SEED: u64 = 20_261_116;

/// From the folder `tests/capi`.
const FILE: &str = "data/first_delivery.txt";

/// The plan of a number, of one sort.
type Maker = fn(&mut Random, usize) -> Plan;

/// A sort of plan, how many there are of it, and how they are made.
const SORTS: [(&str, usize, Maker); 9] = [
    ("one_ring", 64, one_ring),
    ("any_family", 112, any_family),
    ("many_rings", 40, many_rings),
    ("empty_rings", 40, empty_rings),
    ("nested_rings", 24, nested_rings),
    ("one_place", 12, one_place),
    ("ends_of_range", 24, ends_of_range),
    ("out_of_range", 8, out_of_range),
    ("large", LARGE.len(), large),
];

/// Corners of the large plans, about: squares come in fours.
const LARGE: [usize; 20] = [
    150, 200, 250, 300, 400, 500, 600, 700, 800, 1_000, 1_000, 1_200, 1_500, 2_000, 2_500, 3_000,
    5_000, 5_000, 5_000, 5_000,
];

/// Few corners, so that most of the sets are small.
const SMALL: Size = Size {
    corners: 90,
    rings: 24,
};

// ---- plans

/// Rings as one polygon each, as polygons of two rings, or as a tree.
fn of_rings(number: usize, rings: &[Ring]) -> Plan {
    let in_chunks = |size| -> Vec<Polygon> { rings.chunks(size).map(<[Ring]>::to_vec).collect() };
    match number % 3 {
        0 => Plan::list(&in_chunks(1)),
        1 => Plan::tree(rings),
        _ => Plan::list(&in_chunks(2)),
    }
}

fn square(x: i64, y: i64, side: i64) -> Ring {
    vec![(x, y), (x + side, y), (x + side, y + side), (x, y + side)]
}

/// A ring that goes round the origin once, its corners at any distance up to `reach`.
fn round_ring(random: &mut Random, corners: usize, reach: i64) -> Ring {
    let corner = |number: usize| {
        let angle = std::f64::consts::TAU * number as f64 / corners as f64;
        let distance = random.between(reach / 3, reach) as f64;
        let along = |part: f64| (distance * part).round() as i64;
        (along(angle.cos()), along(angle.sin()))
    };
    (0..corners).map(corner).collect()
}

fn scattered(random: &mut Random, corners: usize, reach: i64) -> Ring {
    let mut corner = || (random.between(-reach, reach), random.between(-reach, reach));
    (0..corners).map(|_| corner()).collect()
}

/// One ring of 1 to 64 corners: round, or scattered about.
fn one_ring(random: &mut Random, number: usize) -> Plan {
    let corners = number + 1;
    let ring = if random.one_in(2) {
        round_ring(random, corners, 40)
    } else {
        scattered(random, corners, 9)
    };
    of_rings(number, &[ring])
}

/// Each of the generator's families in turn, at any place of the range.
fn any_family(random: &mut Random, number: usize) -> Plan {
    generate::plan(random, number, SMALL)
}

/// Squares beside each other, which touch or overlap here and there.
fn squares(random: &mut Random, count: usize, columns: i64) -> Vec<Ring> {
    let place = |number: usize| {
        let (column, row) = (number as i64 % columns, number as i64 / columns);
        square(9 * column, 9 * row, random.between(1, 12))
    };
    (0..count).map(place).collect()
}

fn many_rings(random: &mut Random, number: usize) -> Plan {
    let rings = squares(random, 10 + number, 6);
    of_rings(number, &rings)
}

/// None but empty rings, or empty ones, rings of one corner and others in any order.
fn empty_rings(random: &mut Random, number: usize) -> Plan {
    let some_ring = |_| match random.below(5) {
        0..=2 => Vec::new(),
        3 => vec![(random.between(-9, 9), random.between(-9, 9))],
        _ => square(random.between(-9, 9), random.between(-9, 9), 6),
    };
    let rings: Vec<Ring> = if number < 6 {
        vec![Vec::new(); number / 3 * 5]
    } else {
        (0..1 + number / 2).map(some_ring).collect()
    };
    of_rings(number, &rings)
}

/// Squares inside each other, which touch where the gap is 0.
fn nested(random: &mut Random, count: usize) -> Vec<Ring> {
    let gap = random.between(0, 2);
    let ring = |k: i64| square(k * gap, k * gap, 2 * (count as i64 - k) * gap.max(1));
    (0..count as i64).map(ring).collect()
}

fn nested_rings(random: &mut Random, number: usize) -> Plan {
    let rings = nested(random, 2 + number);
    of_rings(number, &rings)
}

/// All corners at one place, so that no key parts them.
fn one_place(_: &mut Random, number: usize) -> Plan {
    of_rings(
        number,
        &[vec![(-3, 5); 1 + 5 * number], vec![(-3, 5); number]],
    )
}

/// Corners at the ends of the range and beside them.
fn ends_of_range(random: &mut Random, number: usize) -> Plan {
    let mut end = || random.pick(&[-1, 1]) * (GRID_LIMIT - random.between(0, 2));
    let ring = (0..3 + 2 * number).map(|_| (end(), end())).collect();
    of_rings(number, &[ring, square(-7, -7, 14)])
}

/// One corner out of range: such a plan is prepared with its index unwritten.
fn out_of_range(random: &mut Random, number: usize) -> Plan {
    let mut plan = many_rings(random, number);
    let place = random.below(plan.coordinates.len());
    plan.coordinates[place] = random.pick(&[GRID_LIMIT + 1, -GRID_LIMIT - 1, i64::MAX, i64::MIN]);
    plan
}

fn large(random: &mut Random, number: usize) -> Plan {
    let corners = LARGE[number];
    match number % 4 {
        0 => of_rings(number, &[round_ring(random, corners, 5_000)]),
        1 => of_rings(number, &squares(random, corners / 4, 36)),
        2 => of_rings(number, &[scattered(random, corners, GRID_LIMIT)]),
        _ => of_rings(number, &nested(random, corners / 4)),
    }
}

// ---- tables

/// Tables for a plan, a third of them longer than it needs, with so many rows for undo records.
fn tables_for(random: &mut Random, plan: &Plan, rows: usize) -> Tables {
    let mut tables = Tables::for_plan(plan);
    if random.one_in(3) {
        let mut more = || random.below(6);
        tables.corners.extend(vec![LENT; more()]);
        tables.rings.extend(vec![LENT_COUNT; more()]);
        tables.polygons.extend(vec![LENT_COUNT; more()]);
        tables.boxes.extend(vec![[LENT; 4]; more()]);
        tables.parts.extend(vec![[LENT_COUNT; 3]; more()]);
        tables.edges.extend(vec![LENT_COUNT; more()]);
    }
    tables.undo = vec![[LENT; 3]; rows];
    tables
}

fn prepared(random: &mut Random, plan: &Plan, rows: usize) -> Prepared {
    let mut tables = tables_for(random, plan, rows);
    let preparing = tables.prepare(plan);
    assert_eq!(preparing.refusal, 0, "{plan:?}");
    Prepared {
        state: preparing.state,
        tables,
        nodes: preparing.nodes as usize,
    }
}

// ---- corrections

/// A move that leaves a corner where it is.
fn move_in_place(random: &mut Random, plan: &Plan) -> Call {
    let corners = plan.corners();
    let corner = random.below(corners.len().max(1));
    let to = corners.get(corner).copied().unwrap_or_default();
    Call::Move { corner, to }
}

/// So many moves, one in `in_place` of them to the place where the corner is.
fn moves(random: &mut Random, model: &mut Model, count: usize, in_place: usize) -> Vec<Call> {
    let call = |_| {
        let call = if random.one_in(in_place) {
            move_in_place(random, model.plan())
        } else {
            sessions::some_move(random, model.plan())
        };
        let _ = model.call(call);
        call
    };
    (0..count).map(call).collect()
}

/// What is called for once a plan is prepared.
#[derive(Clone, Copy)]
enum Style {
    Nothing,
    Moves,
    /// Every other one to the place where the corner is.
    MovesInPlace,
    MovesAndUndos,
    AllUndone,
    MoreMovesThanRows,
}

const STYLES: [Style; 6] = [
    Style::Nothing,
    Style::Moves,
    Style::MovesInPlace,
    Style::MovesAndUndos,
    Style::AllUndone,
    Style::MoreMovesThanRows,
];

/// How many rows are lent for undo records, and the corrections that are called for.
fn corrections(random: &mut Random, plan: &Plan, style: Style) -> (usize, Vec<Call>) {
    let rows = match style {
        Style::Nothing => random.pick(&[0, 4]),
        Style::MoreMovesThanRows => random.pick(&[1, 2, 6]),
        _ => random.pick(&[16, 20, 64]),
    };
    let mut model = Model::new(plan.clone(), rows);
    let calls = match style {
        Style::Nothing => Vec::new(),
        Style::Moves => moves(random, &mut model, 12, 8),
        Style::MovesInPlace => moves(random, &mut model, 12, 2),
        Style::MovesAndUndos => sessions::corrections(random, &mut model, 30),
        Style::AllUndone => {
            let mut calls = moves(random, &mut model, 10, 4);
            calls.extend(vec![Call::Undo; model.depth() + 1]);
            calls
        }
        Style::MoreMovesThanRows => moves(random, &mut model, 14, 4),
    };
    (rows, calls)
}

/// The set of a number: a plan prepared, and corrections called for, each through the exports.
fn set(sort: &str, make: Maker, number: usize, place: usize) -> Stored {
    let mut random = Random::new(SEED, place as u64);
    let handed = make(&mut random, number);
    // Each of the largest plans gets corrections of another style.
    let style = match sort {
        "large" => STYLES[1 + number % 5],
        _ => random.pick(&STYLES),
    };
    let (rows, calls) = corrections(&mut random, &handed, style);
    let mut left = prepared(&mut random, &handed, rows);
    let answered = |call| (call, left.correct(call).err().unwrap_or(0));
    let calls = calls.into_iter().map(answered).collect();
    Stored {
        sort: sort.to_string(),
        handed,
        calls,
        left,
    }
}

fn main() -> Result<(), Box<dyn Error>> {
    // Refused where the file is there.
    let file = File::create_new(FILE);
    let file = file.map_err(|error| format!("{FILE}, which is written once: {error}"))?;
    let mut file = BufWriter::new(file);
    writeln!(
        file,
        "# Tables of the first delivery, kept as they are: README.md beside this file says what they are. Seed {SEED}."
    )?;
    let mut place = 0;
    for (sort, count, make) in SORTS {
        for number in 0..count {
            let set = set(sort, make, number, place);
            write!(file, "\n# set {place}\n{set}")?;
            place += 1;
        }
    }
    file.flush()?;
    println!("{place} sets");
    Ok(())
}
