//! A plain double of the engine with one fault, to try whether a comparison sees it. Without a fault it answers as the engine does.

use crate::engine::Engine;
use crate::runs::{Failure, Mode, Portion};
use capi::prepared::{Prepared, Tables};
use capi::reading::Judged;
use capi::wkt;
use plans::model::{Call, Model};
use plans::plan::{self, Kind, Plan, Query};
use std::collections::BTreeMap;

/// What is wrong with a double.
#[derive(Clone, Copy, Debug, PartialEq, Eq)]
pub enum Fault {
    ParityOnBothGrids,
    HolesAsASet,
    RimBoxesSkipped,
    TieToTheLaterRay,
    HalvesTruncated,
    TurnInFloatingPoint,
    ClosingEdgeLost,
    BoxesNeverNarrowed,
    UndoOneEarly,
    LastPositionKept,
    RingsTurned,
}

/// All faults.
pub const FAULTS: [Fault; 11] = [
    Fault::ParityOnBothGrids,
    Fault::HolesAsASet,
    Fault::RimBoxesSkipped,
    Fault::TieToTheLaterRay,
    Fault::HalvesTruncated,
    Fault::TurnInFloatingPoint,
    Fault::ClosingEdgeLost,
    Fault::BoxesNeverNarrowed,
    Fault::UndoOneEarly,
    Fault::LastPositionKept,
    Fault::RingsTurned,
];

impl Fault {
    /// Whether it is one of reading texts, so that no part shows it in which none is read.
    fn is_in_reading(self) -> bool {
        matches!(self, Fault::LastPositionKept | Fault::RingsTurned)
    }
}

/// The double, with a fault or with none.
pub struct Double {
    pub fault: Option<Fault>,
}

/// The parts of the comparison that are tried on a fault, with so many plans each.
const TRIED: [(Mode, usize); 4] = [
    (Mode::Small, 10_000),
    (Mode::Random, 1_500),
    (Mode::Moves, 150),
    (Mode::Wkt, 42),
];

/// What a comparison with a double finds first, if anything.
pub fn first_difference(fault: Option<Fault>, seed: u64) -> Option<(Mode, Box<Failure>)> {
    let engine = Double { fault };
    let in_reading = fault.is_some_and(Fault::is_in_reading);
    let reads = |mode| mode == Mode::Wkt;
    for (mode, most) in TRIED
        .into_iter()
        .filter(|&(mode, _)| !in_reading || reads(mode))
    {
        let mut portion = Portion::new(&engine, mode, 0, seed);
        if let Err(failure) = portion.run_some(most) {
            return Some((mode, failure));
        }
    }
    None
}

/// A point in integers wide enough for every product.
type WidePoint = (i128, i128);

/// A closed box: least corner and greatest corner.
type Rect = (WidePoint, WidePoint);

/// A ray, as the quarter turn that makes it point to the right.
#[derive(Clone, Copy)]
enum Ray {
    Right,
    Left,
    Up,
    Down,
}

/// What the edges that were met say of a ring.
#[derive(Clone, Copy, Default)]
struct Met {
    winding: i64,
    crossings: u64,
    on: bool,
}

impl Engine for Double {
    fn locate(&self, prepared: &Prepared, query: Query) -> i64 {
        if prepared.state.out_of_range == 1 || !query.in_range() || prepared.state.corners == 0 {
            return 0;
        }
        let met = self.rings_met(&prepared.tables, query);
        match query.mode {
            plan::Mode::Doubled => half_grid_reply(&met),
            plan::Mode::Grid if prepared.state.kind == Kind::Tree as u64 => self.tree_reply(&met),
            plan::Mode::Grid => self.list_reply(&met, &prepared.tables.polygons),
        }
    }

    fn first_not_outside(&self, prepared: &Prepared, points: &[i64]) -> Result<Option<usize>, u64> {
        let (points, _) = points.as_chunks::<2>();
        let is_found = |&[x, y]: &[i64; 2]| self.locate(prepared, Query::grid(x, y)) != 0;
        Ok(points.iter().position(is_found))
    }

    fn read_wkt(&self, text: &[u8]) -> Judged {
        let mut polygons = wkt::judged(text)?.polygons();
        for ring in polygons.iter_mut().flatten() {
            if self.has(Fault::LastPositionKept) {
                ring.extend(ring.first().copied());
            }
        }
        for rings in &mut polygons {
            if self.has(Fault::RingsTurned) {
                rings.reverse();
            }
        }
        Ok(Plan::list(&polygons))
    }

    fn correct(&self, prepared: &mut Prepared, call: Call) -> Result<(), u64> {
        let mut model = self.model_of(prepared);
        model.call(call)?;
        let before = prepared.tables.boxes.clone();
        let depth = prepared.state.undo_depth as usize;
        match call {
            Call::Move { corner, to } => {
                let [x, y] = corner_at(&prepared.tables, corner);
                prepared.tables.undo[depth] = [corner as i64, x, y];
                prepared.state.undo_depth += 1;
                put_corner(&mut prepared.tables, corner, to.into());
            }
            Call::Undo => {
                let early = usize::from(self.has(Fault::UndoOneEarly) && depth > 1);
                let [corner, x, y] = prepared.tables.undo[depth - 1 - early];
                prepared.state.undo_depth -= 1;
                put_corner(&mut prepared.tables, corner as usize, [x, y]);
            }
        }
        self.refit(&mut prepared.tables, &before);
        Ok(())
    }
}

fn corner_at(tables: &Tables, corner: usize) -> [i64; 2] {
    [tables.corners[2 * corner], tables.corners[2 * corner + 1]]
}

fn put_corner(tables: &mut Tables, corner: usize, [x, y]: [i64; 2]) {
    tables.corners[2 * corner] = x;
    tables.corners[2 * corner + 1] = y;
}

fn wide([x, y]: [i64; 2], scale: i128) -> WidePoint {
    (scale * i128::from(x), scale * i128::from(y))
}

impl Double {
    fn has(&self, fault: Fault) -> bool {
        self.fault == Some(fault)
    }

    /// What the correction book says of the next correction: it needs the number of corners, the marks and the depth alone.
    fn model_of(&self, prepared: &Prepared) -> Model {
        let plan = Plan {
            kind: Kind::Tree,
            coordinates: prepared.tables.corners.clone(),
            ring_lengths: vec![prepared.tables.corners.len() / 2],
            ring_counts: Vec::new(),
        };
        let mut model = Model::new(plan, prepared.tables.undo.len());
        for _ in 0..prepared.state.undo_depth {
            let to = (0, 0);
            let made = model.call(Call::Move { corner: 0, to });
            made.expect("a record stands for each move that can be undone");
        }
        model
    }

    /// Makes every box the smallest round its edges.
    fn refit(&self, tables: &mut Tables, before: &[[i64; 4]]) {
        for (place, &[left, bottom, right, top]) in before.iter().enumerate() {
            let [first, count, _] = tables.parts[place];
            let mut rect = [i64::MAX, i64::MAX, i64::MIN, i64::MIN];
            for &edge in &tables.edges[first..first + count] {
                let (a, b, _) = ends(tables, edge);
                rect = around(around(rect, a), b);
            }
            if self.has(Fault::BoxesNeverNarrowed) {
                rect = around(around(rect, [left, bottom]), [right, top]);
            }
            tables.boxes[place] = rect;
        }
    }

    /// Follows a ray to the side of the root box and gathers what its edges say, ring by ring.
    fn rings_met(&self, tables: &Tables, query: Query) -> BTreeMap<usize, Met> {
        let scale = match query.mode {
            plan::Mode::Grid => 1,
            plan::Mode::Doubled => 2,
        };
        let p = wide([query.x, query.y], 1);
        let root = rect_of(tables.boxes[0], scale);
        let ray = self.ray(root, p);
        let reach = self.reach(rect_of(tables.boxes[0], 1), p, scale, ray);
        let mut met: BTreeMap<usize, Met> = BTreeMap::new();
        let mut waiting = vec![0];
        while let Some(place) = waiting.pop() {
            let [first, count, child] = tables.parts[place];
            if !self.enters(rect_of(tables.boxes[place], 1), reach) {
                continue;
            }
            if count > 8 {
                waiting.extend([child + 1, child]);
                continue;
            }
            for &edge in &tables.edges[first..first + count] {
                let (a, b, ring) = self.edge(tables, edge);
                let turned = |corner| turned(ray, wide(corner, scale));
                self.add(
                    met.entry(ring).or_default(),
                    turned(a),
                    turned(b),
                    self::turned(ray, p),
                );
            }
        }
        met
    }

    /// The ray with the least way to its side of the root box, the first of several.
    fn ray(&self, (least, greatest): Rect, p: WidePoint) -> Ray {
        let mut ways = vec![
            (greatest.0 - p.0, Ray::Right),
            (p.0 - least.0, Ray::Left),
            (greatest.1 - p.1, Ray::Up),
            (p.1 - least.1, Ray::Down),
        ];
        if self.has(Fault::TieToTheLaterRay) {
            ways.reverse();
        }
        let nearest = ways.into_iter().min_by_key(|&(way, _)| way);
        nearest.map_or(Ray::Right, |(_, ray)| ray)
    }

    /// The rectangle that the ray crosses, on the grid: from the point, its halves rounded outwards, to the root box's side.
    fn reach(&self, (least, greatest): Rect, p: WidePoint, scale: i128, ray: Ray) -> Rect {
        let floor = |c: i128| c.div_euclid(scale);
        let ceiling = |c: i128| -(-c).div_euclid(scale);
        let (mut low, mut high) = ((floor(p.0), floor(p.1)), (ceiling(p.0), ceiling(p.1)));
        if self.has(Fault::HalvesTruncated) {
            low = (p.0 / scale, p.1 / scale);
            high = low;
        }
        match ray {
            Ray::Right => high.0 = high.0.max(greatest.0),
            Ray::Left => low.0 = low.0.min(least.0),
            Ray::Up => high.1 = high.1.max(greatest.1),
            Ray::Down => low.1 = low.1.min(least.1),
        }
        (low, high)
    }

    /// Whether two closed boxes share a point.
    fn enters(&self, (least, greatest): Rect, (low, high): Rect) -> bool {
        let meets =
            least.0 <= high.0 && low.0 <= greatest.0 && least.1 <= high.1 && low.1 <= greatest.1;
        let on_rim =
            least.0 == high.0 || low.0 == greatest.0 || least.1 == high.1 || low.1 == greatest.1;
        meets && !(self.has(Fault::RimBoxesSkipped) && on_rim)
    }

    fn edge(&self, tables: &Tables, edge: usize) -> ([i64; 2], [i64; 2], usize) {
        let (a, b, ring) = ends(tables, edge);
        if self.has(Fault::ClosingEdgeLost) && edge + 1 == tables.rings[ring] {
            return (a, a, ring);
        }
        (a, b, ring)
    }

    /// Adds what an edge says of a point, all turned so that the ray points to the right.
    fn add(&self, met: &mut Met, a: WidePoint, b: WidePoint, p: WidePoint) {
        let turn = self.turn(a, b, p);
        let between = |u: i128, v: i128, c: i128| u.min(v) <= c && c <= u.max(v);
        if turn == 0 && between(a.0, b.0, p.0) && between(a.1, b.1, p.1) {
            met.on = true;
        }
        if a.1 <= p.1 && p.1 < b.1 && turn > 0 {
            met.winding += 1;
            met.crossings += 1;
        } else if b.1 <= p.1 && p.1 < a.1 && turn < 0 {
            met.winding -= 1;
            met.crossings += 1;
        }
    }

    /// The sign of the turn.
    fn turn(&self, a: WidePoint, b: WidePoint, p: WidePoint) -> i128 {
        if self.has(Fault::TurnInFloatingPoint) {
            let product = |u: i128, v: i128| u as f64 * v as f64;
            let turn = product(b.0 - a.0, p.1 - a.1) - product(b.1 - a.1, p.0 - a.0);
            return if turn == 0.0 {
                0
            } else {
                turn.signum() as i128
            };
        }
        (b.0 - a.0) * (p.1 - a.1) - (b.1 - a.1) * (p.0 - a.0)
    }

    fn is_inside(&self, met: Met) -> bool {
        if self.has(Fault::ParityOnBothGrids) {
            met.crossings % 2 == 1
        } else {
            met.winding != 0
        }
    }

    /// 0 outside, 1 inside, 2 boundary.
    fn ring_reply(&self, met: Option<&Met>) -> i64 {
        match met.copied().unwrap_or_default() {
            met if met.on => 2,
            met => i64::from(self.is_inside(met)),
        }
    }

    fn tree_reply(&self, met: &BTreeMap<usize, Met>) -> i64 {
        let replies: Vec<i64> = met.values().map(|met| self.ring_reply(Some(met))).collect();
        let holding = replies.iter().filter(|&&reply| reply == 1).count();
        if replies.contains(&2) {
            2
        } else {
            (holding % 2) as i64
        }
    }

    fn list_reply(&self, met: &BTreeMap<usize, Met>, polygon_ends: &[usize]) -> i64 {
        let mut start = 0;
        let polygon = |&end: &usize| {
            let mut replies = (start..end).map(|ring| self.ring_reply(met.get(&ring)));
            start = end;
            match replies.next() {
                Some(1) => self.holes_reply(replies.collect()),
                outer => outer.unwrap_or_default(),
            }
        };
        let replies: Vec<i64> = polygon_ends.iter().map(polygon).collect();
        [1, 2]
            .into_iter()
            .find(|reply| replies.contains(reply))
            .unwrap_or_default()
    }

    /// The first hole that is not outside decides.
    fn holes_reply(&self, mut holes: Vec<i64>) -> i64 {
        if self.has(Fault::HolesAsASet) {
            holes.sort_unstable();
        }
        match holes.into_iter().find(|&hole| hole != 0) {
            None => 1,
            Some(1) => 0,
            Some(other) => other,
        }
    }
}

/// Even-odd over all edges.
fn half_grid_reply(met: &BTreeMap<usize, Met>) -> i64 {
    if met.values().any(|met| met.on) {
        return 2;
    }
    let crossings: u64 = met.values().map(|met| met.crossings).sum();
    (crossings % 2) as i64
}

fn rect_of([left, bottom, right, top]: [i64; 4], scale: i128) -> Rect {
    (wide([left, bottom], scale), wide([right, top], scale))
}

fn around([left, bottom, right, top]: [i64; 4], [x, y]: [i64; 2]) -> [i64; 4] {
    [left.min(x), bottom.min(y), right.max(x), top.max(y)]
}

/// The two corners of an edge, and its ring.
fn ends(tables: &Tables, edge: usize) -> ([i64; 2], [i64; 2], usize) {
    let ring = tables.rings.partition_point(|&end| end <= edge);
    let start = if ring == 0 { 0 } else { tables.rings[ring - 1] };
    let next = if edge + 1 < tables.rings[ring] {
        edge + 1
    } else {
        start
    };
    (corner_at(tables, edge), corner_at(tables, next), ring)
}

/// The point turned about the origin with the ray, which then points to the right.
fn turned(ray: Ray, (x, y): WidePoint) -> WidePoint {
    match ray {
        Ray::Right => (x, y),
        Ray::Left => (-x, -y),
        Ray::Up => (y, -x),
        Ray::Down => (-y, x),
    }
}
