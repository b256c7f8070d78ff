//! The answers that are due to calls on any state and tables: by the rules where the tables are sound, by number where a table is short or
//! the call is settled before one is read. Elsewhere document 01 leaves the answer open.

use crate::exports::State;
use crate::prepared::{Tables, node_count};
use crate::soundness::{self, Cuts};
use plans::model::Call;
use plans::plan::{GRID_LIMIT, Kind, Plan, Query, within};
use plans::reference;

/// Document 01's ceilings.
pub const MOST_CORNERS: usize = 1 << 20;
pub const MOST_RINGS: usize = 1 << 16;
pub const MOST_POINTS: usize = 1 << 16;
const MOST_RECORDS: u64 = 1 << 16;

/// The answer that is due, by what decides it.
#[derive(Debug)]
pub enum Due<T> {
    /// No table is read: the state is none, a number comes before, or all is out of range.
    Settled(T),
    /// A table is shorter than the state says.
    Short(T),
    /// The tables are sound.
    Sound(T),
    /// What comes of such tables is left free.
    Open,
}

impl<T: PartialEq> Due<T> {
    /// What decides it, as a word.
    pub fn ground(&self) -> &'static str {
        match self {
            Due::Settled(_) => "settled",
            Due::Short(_) => "short",
            Due::Sound(_) => "sound",
            Due::Open => "open",
        }
    }

    /// Whether an answer is the one that is due or, where that is left open, one that may be given.
    pub fn allows(&self, answer: &T, may_be: impl FnOnce(&T) -> bool) -> bool {
        match self {
            Due::Settled(due) | Due::Short(due) | Due::Sound(due) => answer == due,
            Due::Open => may_be(answer),
        }
    }
}

/// What document 01 says of the tables that a call is lent.
pub enum Judged {
    /// One is shorter than the state says.
    Short,
    /// They are sound and hold this plan.
    Sound(Plan),
    /// Neither.
    Unsound,
}

impl Judged {
    /// Of the plan's own tables and the index, which a look-up through the boxes is lent.
    pub fn whole(state: State, tables: &Tables) -> Judged {
        if soundness::is_short(state, tables) {
            return Judged::Short;
        }
        let indexed = |plan: Plan| {
            let index = soundness::check_index(&plan, tables, Cuts::AsTheyAre);
            index.map(|()| plan)
        };
        let plan = soundness::plan_in(state, tables).and_then(indexed);
        plan.map_or(Judged::Unsound, Judged::Sound)
    }

    /// Of the plan's own tables, which a look-up ring by ring is lent.
    pub fn plan_alone(state: State, tables: &Tables) -> Judged {
        if soundness::is_plan_short(state, tables) {
            return Judged::Short;
        }
        soundness::plan_in(state, tables).map_or(Judged::Unsound, Judged::Sound)
    }
}

/// Whether six numbers are a state's.
fn is_state(state: State) -> bool {
    state.kind <= 1 && state.out_of_range <= 1
}

/// The answer of a look-up: a place's number, or minus the refusal number.
pub fn place(state: State, judged: &Judged, query: Query) -> Due<i64> {
    if !is_state(state) {
        return Due::Settled(-15);
    }
    if state.out_of_range == 1 || !query.in_range() {
        return Due::Settled(0);
    }
    match judged {
        Judged::Short => Due::Short(-15),
        Judged::Sound(plan) => Due::Sound(reply(plan, query).into()),
        Judged::Unsound => Due::Open,
    }
}

fn reply(plan: &Plan, query: Query) -> u8 {
    reference::replies(plan, &[query])[0]
}

/// The answer to a list of points x, y, x, y, ..: the place of the first that is not outside, or the refusal number.
pub fn first(state: State, judged: &Judged, points: &[i64]) -> Due<Result<Option<usize>, u64>> {
    if points.len() / 2 > MOST_POINTS {
        return Due::Settled(Err(4));
    }
    let (pairs, rest) = points.as_chunks::<2>();
    if !rest.is_empty() {
        return Due::Settled(Err(3));
    }
    if !is_state(state) {
        return Due::Settled(Err(15));
    }
    let queries: Vec<Query> = pairs.iter().map(|&[x, y]| Query::grid(x, y)).collect();
    if state.out_of_range == 1 || !queries.iter().any(Query::in_range) {
        return Due::Settled(Ok(None));
    }
    match judged {
        Judged::Short => Due::Short(Err(15)),
        Judged::Sound(plan) => {
            let replies = reference::replies(plan, &queries);
            Due::Sound(Ok(replies.iter().position(|&reply| reply != 0)))
        }
        Judged::Unsound => Due::Open,
    }
}

/// The refusal number of a correction, or 0 where it is accepted.
pub fn correction(state: State, tables: &Tables, call: Call) -> Due<u64> {
    let number = early_correction(state, tables.undo.len(), call);
    if number > 0 {
        return Due::Settled(number);
    }
    if soundness::is_correction_short(state, tables) {
        return Due::Short(15);
    }
    match soundness::check_tables(state, tables) {
        Ok(_) => Due::Sound(0),
        Err(_) => Due::Open,
    }
}

/// The refusal number of a correction that needs no table, or 0.
fn early_correction(state: State, rows: usize, call: Call) -> u64 {
    if !is_state(state) {
        return 15;
    }
    if state.out_of_range == 1 {
        return 12;
    }
    match call {
        Call::Move { corner, to: (x, y) } => {
            let in_range = within(x, GRID_LIMIT) && within(y, GRID_LIMIT);
            if corner as u64 >= state.corners {
                5
            } else if !in_range {
                6
            } else if state.undo_depth >= MOST_RECORDS.min(rows as u64) {
                13
            } else {
                0
            }
        }
        Call::Undo if state.undo_depth == 0 => 14,
        Call::Undo => 0,
    }
}

/// The number by which a plan is refused for its counts, 4 or 3, or 0. The polygon table is looked at in a list alone.
pub fn plan_refusal(list: bool, plan: &Plan) -> u64 {
    let corners = plan.coordinates.len() / 2;
    let (rings, polygons) = (plan.ring_lengths.len(), plan.ring_counts.len());
    if corners > MOST_CORNERS || rings > MOST_RINGS || list && polygons > MOST_RINGS {
        return 4;
    }
    let sum = |numbers: &[usize]| numbers.iter().map(|&number| number as u128).sum::<u128>();
    let uneven = plan.coordinates.len() % 2 == 1 || sum(&plan.ring_lengths) != corners as u128;
    let parted = sum(&plan.ring_counts) == rings as u128 && !plan.ring_counts.contains(&0);
    if uneven || list && !parted { 3 } else { 0 }
}

/// What preparing is due to answer: the refusal, its table and the number of nodes.
pub fn preparing(kind: u64, plan: &Plan, tables: &Tables) -> (u64, u64, u64) {
    let list = kind == Kind::List as u64;
    let corners = plan.coordinates.len() / 2;
    let (rings, polygons) = (plan.ring_lengths.len(), plan.ring_counts.len());
    if kind > 1 {
        return (15, 0, 0);
    }
    match plan_refusal(list, plan) {
        0 => {}
        refusal => return (refusal, 0, 0),
    }
    let in_range = plan.in_range();
    let nodes = node_count(corners);
    let short = [
        tables.corners.len() < 2 * corners,
        tables.rings.len() < rings,
        list && tables.polygons.len() < polygons,
        in_range && tables.boxes.len().min(tables.parts.len()) < nodes,
        in_range && tables.edges.len() < corners,
    ];
    match short.iter().position(|&short| short) {
        Some(table) => (11, table as u64 + 1, 0),
        None if in_range => (0, 0, nodes as u64),
        None => (0, 0, 0),
    }
}
