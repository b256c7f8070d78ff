//! Input of random and extreme numbers through every export: states, tables, plans handed in, undo records, lists of points and texts.
//!
//! Whatever it is, each call ends, reads and writes nothing beside what it is lent, writes nothing that it is only shown, and nothing at
//! all where it refuses; and its answer is the one that [`due`] names, wherever document 01 settles it.

use crate::damage::WAYS;
use crate::due::{self, Due, Judged, MOST_CORNERS, MOST_POINTS, MOST_RINGS};
use crate::entry::locate_text;
use crate::expected;
use crate::exports::{self, Correctable, Handed, Lent, Shown, State};
use crate::guard::{Guarded, Side};
use crate::lent::GuardedPlan;
use crate::prepared::{Prepared, Tables};
use crate::reader::LONGEST;
use crate::soundness;
use crate::wkt::{self, trials::Writings};
use crate::writer;
use plans::generate::{self, Case, Size};
use plans::model::Call;
use plans::plan::{GRID_LIMIT, Plan, Query};
use plans::random::Random;
use std::collections::BTreeMap;
use std::fmt::Debug;

/// What is damaged.
#[derive(Clone, Copy, Debug, PartialEq, Eq, PartialOrd, Ord)]
pub enum Sort {
    State,
    Tables,
    Undo,
    Points,
    Plan,
    Text,
}

/// All sorts of damage.
pub const SORTS: [Sort; 6] = [
    Sort::State,
    Sort::Tables,
    Sort::Undo,
    Sort::Points,
    Sort::Plan,
    Sort::Text,
];

/// So many trials after one another damage the same plan.
const TRIALS_A_PLAN: usize = 16;

/// Plans that are cut a few times.
const SIZE: Size = Size {
    corners: 120,
    rings: 24,
};

/// One in so many trials keeps what is only shown from being written.
const FORBIDDEN_ONE_IN: usize = 16;

/// Undo rows, of which some hold records.
const UNDO_ROWS: usize = 6;

/// The points that are asked of each.
const QUERIES: usize = 4;

/// The most entries of a table in a trial.
const MOST_ENTRIES: usize = 2 * MOST_POINTS + 8;

/// Numbers that lead far outside any table, or just outside a small one.
const EXTREME_PLACES: [usize; 14] = [
    0,
    1,
    2,
    7,
    8,
    9,
    1 << 16,
    (1 << 16) + 1,
    1 << 20,
    (1 << 20) + 1,
    1 << 61,
    1 << 63,
    usize::MAX - 1,
    usize::MAX,
];

/// Coordinates at the ends of the ranges and of 64 bits.
const EXTREME_COORDINATES: [i64; 13] = [
    i64::MIN,
    i64::MIN + 1,
    -2 * GRID_LIMIT - 1,
    -2 * GRID_LIMIT,
    -GRID_LIMIT - 1,
    -GRID_LIMIT,
    -1,
    0,
    GRID_LIMIT,
    GRID_LIMIT + 1,
    2 * GRID_LIMIT,
    2 * GRID_LIMIT + 1,
    i64::MAX,
];

/// How often each answer came up, by sort of damage and call, and how often each ground decided which one was due.
#[derive(Default)]
pub struct Answers {
    pub counts: BTreeMap<(Sort, &'static str, i64), u64>,
    pub grounds: BTreeMap<(&'static str, &'static str), u64>,
}

impl Answers {
    fn add(&mut self, sort: Sort, call: &'static str, answer: i64) {
        *self.counts.entry((sort, call, answer)).or_default() += 1;
    }

    /// Asserts that an answer is due, or may be given where document 01 leaves it open.
    fn judge<T: PartialEq + Debug>(
        &mut self,
        call: &'static str,
        due: &Due<T>,
        answer: &T,
        may_be: impl FnOnce(&T) -> bool,
    ) {
        let allowed = due.allows(answer, may_be);
        assert!(allowed, "{call}: {answer:?} where {due:?} is due");
        *self.grounds.entry((call, due.ground())).or_default() += 1;
    }

    /// How often a call was answered so.
    pub fn of(&self, call: &str, answer: i64) -> u64 {
        let is_it = |&(&(_, name, number), _): &(&(Sort, &str, i64), &u64)| {
            name == call && number == answer
        };
        self.counts
            .iter()
            .filter(is_it)
            .map(|(_, count)| count)
            .sum()
    }
}

/// Guarded memory for everything that is lent or shown.
pub struct Memory {
    corners: Guarded<i64>,
    rings: Guarded<usize>,
    polygons: Guarded<usize>,
    boxes: Guarded<[i64; 4]>,
    parts: Guarded<[usize; 3]>,
    edges: Guarded<usize>,
    undo: Guarded<[i64; 3]>,
    points: Guarded<i64>,
    plan: GuardedPlan,
    text: Guarded<u8>,
}

impl Default for Memory {
    fn default() -> Memory {
        Memory {
            corners: Guarded::new(MOST_ENTRIES),
            rings: Guarded::new(MOST_ENTRIES),
            polygons: Guarded::new(MOST_ENTRIES),
            boxes: Guarded::new(MOST_ENTRIES),
            parts: Guarded::new(MOST_ENTRIES),
            edges: Guarded::new(MOST_ENTRIES),
            undo: Guarded::new(MOST_ENTRIES),
            points: Guarded::new(MOST_ENTRIES),
            plan: GuardedPlan::default(),
            text: Guarded::new(LONGEST + 8),
        }
    }
}

/// A prepared plan, damaged or not, and what is asked of it.
struct Trial {
    sort: Sort,
    state: State,
    tables: Tables,
    queries: Vec<Query>,
    points: Vec<i64>,
    call: Call,
}

impl Trial {
    /// Asserts what an accepted correction of sound tables leaves: the corner at its place, the tables sound, a record more or one fewer.
    fn assert_made(&self, state: State, after: &Tables) {
        let mut plan = soundness::plan_in(self.state, &self.tables).expect("sound tables");
        let mut undo = self.tables.undo.clone();
        let depth = self.state.undo_depth as usize;
        let (corner, (x, y), undo_depth) = match self.call {
            Call::Move { corner, to } => {
                let (x, y) = (
                    plan.coordinates[2 * corner],
                    plan.coordinates[2 * corner + 1],
                );
                undo[depth] = [corner as i64, x, y];
                (corner, to, depth + 1)
            }
            Call::Undo => {
                let [corner, x, y] = undo[depth - 1];
                (corner as usize, (x, y), depth - 1)
            }
        };
        plan.coordinates[2 * corner] = x;
        plan.coordinates[2 * corner + 1] = y;
        let due = State {
            undo_depth: undo_depth as u64,
            ..self.state
        };
        assert_eq!(state, due);
        assert_eq!(after.undo, undo);
        assert_eq!(soundness::check_tables(state, after), Ok(plan));
    }
}

/// The damage of a seed, with memory to lend.
pub struct Trials {
    seed: u64,
    memory: Memory,
    writings: Writings,
    side: Side,
    /// Whether what is only shown is kept from being written. It takes long, and so is done in some trials; in all of them the tables are
    /// compared.
    forbid: bool,
    base: Option<(usize, Case, Prepared)>,
    pub answers: Answers,
}

impl Trials {
    pub fn new(seed: u64) -> Trials {
        Trials {
            seed,
            memory: Memory::default(),
            writings: Writings::default(),
            side: Side::After,
            forbid: true,
            base: None,
            answers: Answers::default(),
        }
    }

    /// Tries damage of a sort; the number says which.
    pub fn run(&mut self, sort: Sort, number: usize) {
        let mut random = Random::new(self.seed ^ sort as u64, number as u64);
        self.side = random.pick(&[Side::Before, Side::After]);
        self.forbid = random.one_in(FORBIDDEN_ONE_IN);
        match sort {
            Sort::Plan => self.try_plan(&mut random, number),
            Sort::Text => self.try_text(&mut random, number),
            _ => {
                let trial = self.trial(&mut random, sort, number);
                self.look_up(&trial);
                self.correct(&trial);
            }
        }
    }

    /// The plan of a number, prepared, with a few records to undo.
    fn base(&mut self, number: usize) -> &(usize, Case, Prepared) {
        let number = number / TRIALS_A_PLAN;
        if self.base.as_ref().is_none_or(|base| base.0 != number) {
            let case = generate::case(self.seed, number, SIZE, QUERIES);
            let mut prepared =
                Prepared::with_undo(&case.plan, UNDO_ROWS).expect("a generated plan is accepted");
            for corner in 0..3.min(prepared.state.corners as usize) {
                let to = (corner as i64, 7);
                let _ = prepared.correct(Call::Move { corner, to });
            }
            self.base = Some((number, case, prepared));
        }
        self.base.as_ref().expect("it was put there")
    }

    fn trial(&mut self, random: &mut Random, sort: Sort, number: usize) -> Trial {
        let (_, case, prepared) = self.base(number);
        let mut trial = Trial {
            sort,
            state: prepared.state,
            tables: prepared.tables.clone(),
            queries: case.queries.clone(),
            points: case
                .queries
                .iter()
                .flat_map(|query| [query.x, query.y])
                .collect(),
            call: Call::Undo,
        };
        if random.one_in(2) {
            trial.call = some_move(random, trial.state.corners as usize);
        }
        for _ in 0..1 + random.below(3) {
            match sort {
                Sort::State => damage_state(random, &mut trial.state),
                Sort::Undo => damage_undo(random, &mut trial),
                Sort::Points => damage_points(random, &mut trial.points),
                _ => damage_tables(random, &mut trial.tables),
            }
        }
        trial
    }

    /// Asks every point in every way, of tables that may not be written.
    fn look_up(&mut self, trial: &Trial) {
        let Trial {
            sort,
            state,
            tables,
            queries,
            points,
            ..
        } = trial;
        let memory = &mut self.memory;
        memory.hold(tables, self.side);
        memory.points.hold(points, self.side);
        if self.forbid {
            memory.set_tables(true);
        }
        let (whole, alone) = (
            Judged::whole(*state, tables),
            Judged::plan_alone(*state, tables),
        );
        let is_answer = |answer: &i64| [0, 1, 2, -15].contains(answer);
        let shown = memory.shown();
        for &query in queries {
            let boxes = exports::locate(*state, shown, query);
            let due = due::place(*state, &whole, query);
            self.answers.judge("locate", &due, &boxes, is_answer);
            self.answers.add(*sort, "locate", boxes);
            let rings = exports::locate_by_rings(*state, shown, query);
            let due = due::place(*state, &alone, query);
            self.answers
                .judge("locate_by_rings", &due, &rings, is_answer);
            self.answers.add(*sort, "locate_by_rings", rings);
        }
        let first = exports::first_not_outside(*state, shown, memory.points.as_slice()).answer();
        if self.forbid {
            memory.set_tables(false);
        }
        assert!(memory.holds(tables), "a look-up wrote");
        let due = due::first(*state, &whole, points);
        self.answers
            .judge("first_not_outside", &due, &first, |first| {
                may_be_first(first, points)
            });
        let number = list_number(first);
        self.answers.add(*sort, "first_not_outside", number);
    }

    /// Makes the correction, which writes nothing where it is refused.
    fn correct(&mut self, trial: &Trial) {
        let Trial {
            sort,
            state,
            tables,
            call,
            ..
        } = trial;
        let memory = &mut self.memory;
        memory.hold(tables, self.side);
        let corrected = exports::correct(*state, memory.correctable(), *call);
        let name = match call {
            Call::Move { .. } => "move",
            Call::Undo => "undo",
        };
        let due = due::correction(*state, tables, *call);
        self.answers
            .judge(name, &due, &corrected.refusal, |number| {
                [0, 15].contains(number)
            });
        if corrected.refusal > 0 {
            assert_eq!(corrected.state, *state);
            assert!(memory.holds(tables), "a refusal wrote");
        } else if let Due::Sound(_) = due {
            trial.assert_made(corrected.state, &memory.tables());
        }
        assert!(
            memory.holds_shown(tables, *call),
            "what is shown was written"
        );
        self.answers.add(*sort, name, corrected.refusal as i64);
    }

    /// Prepares a plan of damaged lists, in tables of any length, and writes it.
    fn try_plan(&mut self, random: &mut Random, number: usize) {
        let (_, case, prepared) = self.base(number);
        let (mut plan, mut tables) = (case.plan.clone(), prepared.tables.clone());
        let mut kind = plan.kind as u64;
        for _ in 0..random.below(3) {
            damage_plan(random, &mut plan, &mut kind);
        }
        if random.one_in(2) {
            damage_lengths(random, &mut tables);
        }
        let (memory, side) = (&mut self.memory, self.side);
        memory.hold(&tables, side);
        memory.plan.hold(&plan, side);
        if self.forbid {
            memory.plan.forbid_writing(true);
        }
        let (handed, lent) = memory.handed(kind);
        let preparing = exports::prepare(handed, lent);
        if self.forbid {
            memory.plan.forbid_writing(false);
        }
        assert!(memory.plan.holds(&plan), "the plan handed in was written");
        let (refusal, table, nodes) = due::preparing(kind, &plan, &tables);
        assert_eq!(
            (preparing.refusal, preparing.table, preparing.nodes),
            (refusal, table, nodes)
        );
        if refusal > 0 {
            assert!(memory.holds(&tables), "a refusal wrote");
        }
        self.answers.add(Sort::Plan, "prepare", refusal as i64);
        self.write_plan(random, kind, &plan);
    }

    /// Writes a plan as Well-Known Text, to an output of any length.
    fn write_plan(&mut self, random: &mut Random, kind: u64, plan: &Plan) {
        let whole = wkt::due_writing(kind, plan, usize::MAX);
        let mut output = whole.unwrap_or_default();
        resize(random, &mut output, 0);
        self.writings.forbid = self.forbid;
        let written = self.writings.write(kind, plan, output.len(), self.side);
        let refusal = written.map_or_else(|(refusal, _)| refusal, |_| 0);
        self.answers.add(Sort::Plan, "write_wkt", refusal as i64);
    }

    /// Asks a point of damaged text, or of any bytes.
    fn try_text(&mut self, random: &mut Random, number: usize) {
        let (_, case, _) = self.base(number);
        let query = random.pick(&case.queries);
        let mut text = writer::write(&case.plan, random.pick(writer::headers(case.plan.kind)));
        if random.one_in(8) {
            text = (0..random.below(300)).map(|_| random.any() as u8).collect();
        }
        for _ in 0..random.below(3) {
            if text.contains(&b'\n') {
                text = random.pick(WAYS).1(random, &text);
            }
        }
        if random.one_in(64) {
            text.resize(random.pick(&[LONGEST - 1, LONGEST, LONGEST + 1]), b'0');
        }
        let memory = &mut self.memory;
        memory.text.hold(&text, self.side);
        if self.forbid {
            memory.text.forbid_writing(true);
        }
        let answer = locate_text(memory.text.as_slice(), (query.x, query.y));
        if self.forbid {
            memory.text.forbid_writing(false);
        }
        assert!(memory.text.as_slice() == text, "the text was written");
        let due = expected::answers(&text, &[(query.x, query.y)]);
        assert_eq!([answer], due[..], "{}", text.escape_ascii());
        self.answers.add(Sort::Text, "locate_text", answer);
    }
}

impl Memory {
    fn hold(&mut self, tables: &Tables, side: Side) {
        self.corners.hold(&tables.corners, side);
        self.rings.hold(&tables.rings, side);
        self.polygons.hold(&tables.polygons, side);
        self.boxes.hold(&tables.boxes, side);
        self.parts.hold(&tables.parts, side);
        self.edges.hold(&tables.edges, side);
        self.undo.hold(&tables.undo, side);
    }

    /// Whether the tables are as they were held.
    fn holds(&self, tables: &Tables) -> bool {
        self.corners.as_slice() == tables.corners
            && self.rings.as_slice() == tables.rings
            && self.polygons.as_slice() == tables.polygons
            && self.boxes.as_slice() == tables.boxes
            && self.parts.as_slice() == tables.parts
            && self.edges.as_slice() == tables.edges
            && self.undo.as_slice() == tables.undo
    }

    /// The tables as they now stand.
    fn tables(&self) -> Tables {
        Tables {
            corners: self.corners.as_slice().to_vec(),
            rings: self.rings.as_slice().to_vec(),
            polygons: self.polygons.as_slice().to_vec(),
            boxes: self.boxes.as_slice().to_vec(),
            parts: self.parts.as_slice().to_vec(),
            edges: self.edges.as_slice().to_vec(),
            undo: self.undo.as_slice().to_vec(),
        }
    }

    /// Whether the tables that a correction only reads are as they were held.
    fn holds_shown(&self, tables: &Tables, call: Call) -> bool {
        self.rings.as_slice() == tables.rings
            && self.parts.as_slice() == tables.parts
            && self.edges.as_slice() == tables.edges
            && (call != Call::Undo || self.undo.as_slice() == tables.undo)
    }

    /// Keeps the tables from being written, or no longer.
    fn set_tables(&self, forbid: bool) {
        self.corners.forbid_writing(forbid);
        self.rings.forbid_writing(forbid);
        self.polygons.forbid_writing(forbid);
        self.boxes.forbid_writing(forbid);
        self.parts.forbid_writing(forbid);
        self.edges.forbid_writing(forbid);
        self.points.forbid_writing(forbid);
    }

    fn shown(&self) -> Shown<'_> {
        Shown {
            corners: self.corners.as_slice(),
            rings: self.rings.as_slice(),
            polygons: self.polygons.as_slice(),
            boxes: self.boxes.as_slice(),
            parts: self.parts.as_slice(),
            edges: self.edges.as_slice(),
        }
    }

    fn correctable(&mut self) -> Correctable<'_> {
        Correctable {
            corners: self.corners.as_mut_slice(),
            rings: self.rings.as_slice(),
            boxes: self.boxes.as_mut_slice(),
            parts: self.parts.as_slice(),
            edges: self.edges.as_slice(),
            undo: self.undo.as_mut_slice(),
        }
    }

    fn handed(&mut self, kind: u64) -> (Handed<'_>, Lent<'_>) {
        let handed = self.plan.handed(kind);
        let lent = Lent {
            corners: self.corners.as_mut_slice(),
            rings: self.rings.as_mut_slice(),
            polygons: self.polygons.as_mut_slice(),
            boxes: self.boxes.as_mut_slice(),
            parts: self.parts.as_mut_slice(),
            edges: self.edges.as_mut_slice(),
        };
        (handed, lent)
    }
}

/// An answer to a list of points as a number: 0 where a point is found, -1 where none is, or the refusal number.
fn list_number(answer: Result<Option<usize>, u64>) -> i64 {
    match answer {
        Ok(None) => -1,
        Ok(Some(_)) => 0,
        Err(number) => number as i64,
    }
}

/// Whether a list may be answered so on any tables: none, a listed point in range, or 15.
fn may_be_first(answer: &Result<Option<usize>, u64>, points: &[i64]) -> bool {
    let (points, _) = points.as_chunks::<2>();
    match *answer {
        Ok(None) | Err(15) => true,
        Ok(Some(place)) => points
            .get(place)
            .is_some_and(|&[x, y]| Query::grid(x, y).in_range()),
        Err(_) => false,
    }
}

/// A move of one of so many corners, or of none.
fn some_move(random: &mut Random, corners: usize) -> Call {
    let corner = if corners > 0 && !random.one_in(4) {
        random.below(corners)
    } else {
        some_place(random, corners)
    };
    let to = if random.one_in(2) {
        (random.between(-20, 20), random.between(-20, 20))
    } else {
        (some_coordinate(random), some_coordinate(random))
    };
    Call::Move { corner, to }
}

/// A number that is a place of a table of so many entries, nearly one, or far from it.
fn some_place(random: &mut Random, entries: usize) -> usize {
    match random.below(4) {
        0 => random.below(entries.saturating_add(2)),
        1 => random.any() as usize,
        2 => entries.saturating_sub(random.below(3)),
        _ => random.pick(&EXTREME_PLACES),
    }
}

/// A coordinate of a small plan, at an end, or any.
fn some_coordinate(random: &mut Random) -> i64 {
    match random.below(4) {
        0 => random.any() as i64,
        1 => random.between(-GRID_LIMIT, GRID_LIMIT),
        2 => random.between(-20, 20),
        _ => random.pick(&EXTREME_COORDINATES),
    }
}

fn damage_state(random: &mut Random, state: &mut State) {
    let entries = state.corners as usize;
    let number = some_place(random, entries) as u64;
    match random.below(6) {
        0 => state.kind = number,
        1 => state.out_of_range = number,
        2 => state.corners = number,
        3 => state.rings = number,
        4 => state.polygons = number,
        _ => state.undo_depth = number,
    }
}

fn damage_tables(random: &mut Random, tables: &mut Tables) {
    let entries = tables.edges.len();
    let column = random.below(4);
    match random.below(10) {
        0 => change(random, &mut tables.corners, |random, entry| {
            *entry = some_coordinate(random)
        }),
        1 => change(random, &mut tables.rings, |random, entry| {
            *entry = some_place(random, entries)
        }),
        2 => change(random, &mut tables.polygons, |random, entry| {
            *entry = some_place(random, entries)
        }),
        3 | 4 => change(random, &mut tables.boxes, |random, row| {
            row[column] = some_coordinate(random)
        }),
        5 | 6 => change(random, &mut tables.parts, |random, row| {
            row[column % 3] = some_place(random, entries)
        }),
        7 => change(random, &mut tables.edges, |random, entry| {
            *entry = some_place(random, entries)
        }),
        8 => damage_lengths(random, tables),
        _ => damage_all(random, tables),
    }
}

/// Fills one table with any numbers.
fn damage_all(random: &mut Random, tables: &mut Tables) {
    let entries = tables.edges.len();
    match random.below(5) {
        0 => tables.corners.fill_with(|| some_coordinate(random)),
        1 => tables.rings.fill_with(|| some_place(random, entries)),
        2 => tables
            .boxes
            .fill_with(|| [0; 4].map(|_| some_coordinate(random))),
        3 => tables
            .parts
            .fill_with(|| [0; 3].map(|_| some_place(random, entries))),
        _ => tables.edges.fill_with(|| some_place(random, entries)),
    }
}

/// Makes a table shorter or longer.
fn damage_lengths(random: &mut Random, tables: &mut Tables) {
    match random.below(7) {
        0 => resize(random, &mut tables.corners, i64::MIN),
        1 => resize(random, &mut tables.rings, usize::MAX),
        2 => resize(random, &mut tables.polygons, usize::MAX),
        3 => resize(random, &mut tables.boxes, [i64::MIN; 4]),
        4 => resize(random, &mut tables.parts, [usize::MAX; 3]),
        5 => resize(random, &mut tables.edges, usize::MAX),
        _ => resize(random, &mut tables.undo, [i64::MIN; 3]),
    }
}

/// Damages the records, their number, or the tables above which a corner is put back.
fn damage_undo(random: &mut Random, trial: &mut Trial) {
    let entries = trial.tables.edges.len();
    match random.below(6) {
        0 => trial.state.undo_depth = random.below(UNDO_ROWS + 2) as u64,
        1 => resize(random, &mut trial.tables.undo, [i64::MIN; 3]),
        2 => damage_tables(random, &mut trial.tables),
        _ => change(random, &mut trial.tables.undo, |random, row| {
            match random.below(3) {
                0 => row[0] = some_place(random, entries) as i64,
                column => row[column] = some_coordinate(random),
            }
        }),
    }
}

fn damage_points(random: &mut Random, points: &mut Vec<i64>) {
    match random.below(5) {
        0 => resize(random, points, 0),
        1 => points.fill_with(|| some_coordinate(random)),
        // Long lists take long: few of them.
        2 if random.one_in(500) => {
            let length = 2 * MOST_POINTS - 1 + random.below(5);
            points.resize(length, GRID_LIMIT + 1);
        }
        _ => change(random, points, |random, entry| {
            *entry = some_coordinate(random)
        }),
    }
}

fn damage_plan(random: &mut Random, plan: &mut Plan, kind: &mut u64) {
    let entries = plan.coordinates.len();
    match random.below(9) {
        0 => *kind = some_place(random, 2) as u64,
        1 => *kind = random.below(2) as u64,
        2 => resize(random, &mut plan.coordinates, 0),
        3 => change(random, &mut plan.coordinates, |random, entry| {
            *entry = some_coordinate(random)
        }),
        4 => resize(random, &mut plan.ring_lengths, 0),
        5 => change(random, &mut plan.ring_lengths, |random, entry| {
            *entry = some_place(random, entries)
        }),
        6 => resize(random, &mut plan.ring_counts, 0),
        7 if random.one_in(50) => exceed(random, plan),
        _ => change(random, &mut plan.ring_counts, |random, entry| {
            *entry = some_place(random, entries)
        }),
    }
}

/// Puts one of the plan's lists at its ceiling or beyond it.
fn exceed(random: &mut Random, plan: &mut Plan) {
    let beyond = random.below(3);
    match random.below(3) {
        0 => plan.coordinates.resize(2 * MOST_CORNERS + beyond, 0),
        1 => plan.ring_lengths.resize(MOST_RINGS + beyond, 0),
        _ => plan.ring_counts.resize(MOST_RINGS + beyond, 1),
    }
}

fn change<T>(random: &mut Random, table: &mut [T], change: impl FnOnce(&mut Random, &mut T)) {
    if !table.is_empty() {
        let place = random.below(table.len());
        change(random, &mut table[place]);
    }
}

/// Leaves out some entries, or adds some.
fn resize<T: Clone>(random: &mut Random, table: &mut Vec<T>, entry: T) {
    let length = match random.below(4) {
        0 => 0,
        1 => table.len() + 1,
        2 => table.len().saturating_sub(1),
        _ => random.below(table.len() + 2),
    };
    table.resize(length, entry);
}
