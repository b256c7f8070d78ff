//! Whether tables are sound by item 9, and whether those just prepared are cut by item 5: followed node by node from their text alone.
//!
//! Every check ends with an answer, whatever the tables and the state hold.

use crate::exports::State;
use crate::prepared::{Prepared, Tables, node_count};
use plans::plan::{GRID_LIMIT, Kind, Plan, Point, edges, within};

/// The most edges of a node that is not cut.
const LEAF: usize = 8;

/// Document 01's ceilings.
const MOST_CORNERS: usize = 1 << 20;
const MOST_RINGS: usize = 1 << 16;

/// A box: least x, least y, greatest x, greatest y.
type Rect = [i64; 4];

/// The box round no edges.
const EMPTY: Rect = [i64::MAX, i64::MAX, i64::MIN, i64::MIN];

/// Whether the cut rule of item 5 is asked: it holds at preparing, and after a move it need not.
#[derive(Clone, Copy, PartialEq, Eq)]
pub enum Cuts {
    AsPrepared,
    AsTheyAre,
}

/// A plan's edges, by number, and what its prepared tables say of them.
struct Check<'a> {
    edges: Vec<(Point, Point)>,
    tables: &'a Tables,
    cuts: Cuts,
    free: usize,
}

/// That a fact holds, or else which one does not.
fn hold(fact: bool, what: impl FnOnce() -> String) -> Result<(), String> {
    if fact { Ok(()) } else { Err(what()) }
}

/// That the tables begin with the plan, and its index by items 5 and 9, or else where they do not.
pub fn check(plan: &Plan, prepared: &Prepared, cuts: Cuts) -> Result<(), String> {
    check_plan(plan, &prepared.tables)?;
    let nodes = node_count(plan.coordinates.len() / 2);
    hold(prepared.nodes == nodes, || {
        format!("{} nodes are reported", prepared.nodes)
    })?;
    check_index(plan, &prepared.tables, cuts)
}

/// That the corner, ring and polygon tables begin with the plan. What was lent beyond it is nobody's affair.
fn check_plan(plan: &Plan, tables: &Tables) -> Result<(), String> {
    let held = [
        ("corner", tables.corners.starts_with(&plan.coordinates)),
        ("ring", tables.rings.starts_with(&sums(&plan.ring_lengths))),
        (
            "polygon",
            tables.polygons.starts_with(&sums(&plan.ring_counts)),
        ),
    ];
    for (name, held) in held {
        hold(held, || format!("the {name} table is not the plan's"))?;
    }
    Ok(())
}

/// The sums so far.
fn sums(lengths: &[usize]) -> Vec<usize> {
    let mut sum = 0;
    let add = |&length: &usize| {
        sum += length;
        sum
    };
    lengths.iter().map(add).collect()
}

/// Whether a table of the plan's own is shorter than the state says. A tree has no polygon table.
pub fn is_plan_short(state: State, tables: &Tables) -> bool {
    are_rings_short(state, tables) || (tables.polygons.len() as u64) < polygons_of(state)
}

/// Whether any table that a look-up through the boxes is lent is shorter than the state says.
pub fn is_short(state: State, tables: &Tables) -> bool {
    is_plan_short(state, tables) || is_index_short(state, tables)
}

/// Whether any table that a correction is lent is shorter than the state says. Polygons are not lent.
pub fn is_correction_short(state: State, tables: &Tables) -> bool {
    are_rings_short(state, tables)
        || is_index_short(state, tables)
        || (tables.undo.len() as u64) < state.undo_depth
}

fn are_rings_short(state: State, tables: &Tables) -> bool {
    ((tables.corners.len() / 2) as u64) < state.corners || (tables.rings.len() as u64) < state.rings
}

fn is_index_short(state: State, tables: &Tables) -> bool {
    let corners = state.corners as usize;
    // N of a number above the edge list's length is not asked for: it might take long.
    tables.edges.len() < corners || tables.boxes.len().min(tables.parts.len()) < node_count(corners)
}

/// How many polygons the polygon table has.
fn polygons_of(state: State) -> u64 {
    if state.kind == Kind::List as u64 {
        state.polygons
    } else {
        0
    }
}

/// The plan that tables hold as far as the state says that they reach, or else why the plan's own tables are not sound.
pub fn plan_in(state: State, tables: &Tables) -> Result<Plan, String> {
    let kind = match state.kind {
        0 => Kind::List,
        1 => Kind::Tree,
        other => return Err(format!("no kind has the number {other}")),
    };
    hold(!is_plan_short(state, tables), || {
        "a table of the plan is shorter than the state says".to_string()
    })?;
    let [corners, rings, polygons] =
        [state.corners, state.rings, polygons_of(state)].map(|count| count as usize);
    let few = corners <= MOST_CORNERS && rings <= MOST_RINGS && polygons <= MOST_RINGS;
    hold(few, || "a count is above its ceiling".to_string())?;
    let ring_lengths = lengths(&tables.rings[..rings], corners)
        .ok_or("the ring ends do not rise to the number of corners")?;
    let ring_counts = match kind {
        Kind::List => lengths(&tables.polygons[..polygons], rings)
            .filter(|counts| !counts.contains(&0))
            .ok_or("the polygon ends do not rise to the number of rings, one or more each")?,
        Kind::Tree => Vec::new(),
    };
    let plan = Plan {
        kind,
        coordinates: tables.corners[..2 * corners].to_vec(),
        ring_lengths,
        ring_counts,
    };
    hold(plan.in_range(), || "a corner is out of range".to_string())?;
    Ok(plan)
}

/// The lengths of which a table has the sums so far, if the last of them is `total`.
fn lengths(ends: &[usize], total: usize) -> Option<Vec<usize>> {
    let mut start = 0;
    let mut lengths = Vec::with_capacity(ends.len());
    for &end in ends {
        lengths.push(end.checked_sub(start)?);
        start = end;
    }
    (start == total).then_some(lengths)
}

/// The plan that sound tables hold, or else which clause of item 9 they break.
pub fn check_tables(state: State, tables: &Tables) -> Result<Plan, String> {
    let plan = plan_in(state, tables)?;
    check_index(&plan, tables, Cuts::AsTheyAre)?;
    check_undo(state, tables)?;
    Ok(plan)
}

/// That every undo record names a corner and a place in range, and that there are as many rows as records.
pub fn check_undo(state: State, tables: &Tables) -> Result<(), String> {
    let depth = state.undo_depth as usize;
    let records = tables.undo.get(..depth);
    let records = records.ok_or("the undo table is shorter than the state says")?;
    for (row, &[corner, x, y]) in records.iter().enumerate() {
        let named = u64::try_from(corner).is_ok_and(|corner| corner < state.corners);
        hold(named, || format!("record {row} names corner {corner}"))?;
        let near = within(x, GRID_LIMIT) && within(y, GRID_LIMIT);
        hold(near, || format!("record {row} names a place out of range"))?;
    }
    Ok(())
}

/// That nodes and edges are those of a plan, by items 5 and 9, or else where they are not. The plan is one that preparing accepts.
pub fn check_index(plan: &Plan, tables: &Tables, cuts: Cuts) -> Result<(), String> {
    hold(plan.in_range(), || "a corner is out of range".to_string())?;
    let rings = plan.rings();
    let edges: Vec<(Point, Point)> = rings.iter().flat_map(|ring| edges(ring)).collect();
    let n = edges.len();
    let mut numbers = match tables.edges.get(..n) {
        Some(numbers) => numbers.to_vec(),
        None => return Err("the edge list is too short".to_string()),
    };
    numbers.sort_unstable();
    hold(numbers.iter().copied().eq(0..n), || {
        "an edge is missing or comes twice".to_string()
    })?;
    let mut check = Check {
        edges,
        tables,
        cuts,
        free: 1,
    };
    check.node(0, 0, n)?;
    hold(check.free == node_count(n), || {
        format!("{} nodes are reached", check.free)
    })
}

impl Check<'_> {
    /// Checks the node at a place, whose part has to be so many edges from `first` on, and all nodes below it, the right one first.
    fn node(&mut self, place: usize, first: usize, count: usize) -> Result<(), String> {
        let row = self.tables.parts.get(place).copied();
        let held = self.tables.boxes.get(place).copied();
        let (Some([held_first, held_count, child]), Some(held)) = (row, held) else {
            return Err(format!("there is no row for node {place}"));
        };
        hold((held_first, held_count) == (first, count), || {
            format!(
                "the part of node {place} is {held_count} edges from {held_first} on, where {count} from {first} on are due"
            )
        })?;
        let numbers = &self.tables.edges[first..first + count];
        let around = |rect, &edge: &usize| around(rect, self.edges[edge]);
        let rect = numbers.iter().fold(EMPTY, around);
        hold(held == rect, || {
            format!("the box of node {place} is {held:?}, the smallest one {rect:?}")
        })?;
        if count <= LEAF {
            let is_leaf = child == 0 || self.cuts == Cuts::AsTheyAre;
            return hold(is_leaf, || format!("leaf {place} has child {child}"));
        }
        hold(child == self.free, || {
            format!("the left part of node {place} is at {child}")
        })?;
        self.free += 2;
        let left = count / 2;
        let cut = self.cuts == Cuts::AsTheyAre || self.is_cut(rect, numbers, left);
        hold(cut, || format!("node {place} is not cut by the rule"))?;
        self.node(child + 1, first + left, count - left)?;
        self.node(child, first, left)
    }

    /// No key on the left exceeds one on the right: the sum of both ends in x if the box is at least as wide as high, else in y.
    fn is_cut(&self, rect: Rect, numbers: &[usize], left: usize) -> bool {
        let extent = |least: usize| i128::from(rect[least + 2]) - i128::from(rect[least]);
        let wide = extent(0) >= extent(1);
        let key = |&edge: &usize| {
            let (a, b) = self.edges[edge];
            if wide { a.0 + b.0 } else { a.1 + b.1 }
        };
        numbers[..left].iter().map(key).max() <= numbers[left..].iter().map(key).min()
    }
}

/// The smallest box of each node that a plan's index has, as its parts and its edge list name their edges; other rows are as they were.
pub fn smallest_boxes(plan: &Plan, tables: &Tables) -> Vec<Rect> {
    let rings = plan.rings();
    let edges: Vec<(Point, Point)> = rings.iter().flat_map(|ring| edges(ring)).collect();
    let mut boxes = tables.boxes.clone();
    for (rect, &[first, count, _]) in boxes
        .iter_mut()
        .zip(&tables.parts)
        .take(node_count(edges.len()))
    {
        let part = &tables.edges[first..first + count];
        *rect = part
            .iter()
            .fold(EMPTY, |rect, &edge| around(rect, edges[edge]));
    }
    boxes
}

/// A box with an edge more.
fn around(rect: Rect, (a, b): (Point, Point)) -> Rect {
    let [left, bottom, right, top] = rect;
    [
        left.min(a.0).min(b.0),
        bottom.min(a.1).min(b.1),
        right.max(a.0).max(b.0),
        top.max(a.1).max(b.1),
    ]
}
