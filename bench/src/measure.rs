//! One shape measured: each operation by both engines in turn, repetition after repetition.

use polyclip::{PolyNode, PolyTree, Polygon, Preparable};
use shapes::points::{moves, points};
use shapes::{Corner, Kind, Shape};
use std::hint::black_box;
use timing::clock::{median, timed};
use timing::in_turn::{Effort, Figures, in_turn, means_in_turn};

/// What is measured of one shape.
pub struct Measured {
    pub corners: usize,
    pub rings: usize,
    pub prepare: Figures,
    pub locate: Figures,
    pub locate_doubled: Figures,
    pub by_rings: Figures,
    /// A move and its undo: ours alone.
    pub correction: f64,
}

/// The most points that are asked in turn, so that they do not all find their boxes in the nearest cache.
const POINTS: usize = 4_096;

/// The fewest calls that a figure rests on.
const FEWEST: usize = 8;

/// Measures one shape.
pub fn measure(shape: &Shape, effort: Effort) -> Measured {
    match shape.kind {
        Kind::List => measure_as(shape, &polygons(shape), effort),
        Kind::Tree => measure_as(shape, &tree(shape), effort),
    }
}

/// The shape as the original's list of polygons.
fn polygons(shape: &Shape) -> Vec<Polygon> {
    let polygon = |corners: &Vec<Corner>| Polygon::new(ring(corners), Vec::new());
    shape.rings.iter().map(polygon).collect()
}

/// The shape as the original's tree, whose nesting no look-up reads.
fn tree(shape: &Shape) -> PolyTree {
    let node = |corners: &Vec<Corner>| PolyNode {
        ring: ring(corners),
        ..PolyNode::default()
    };
    PolyTree {
        nodes: shape.rings.iter().map(node).collect(),
        roots: Vec::new(),
    }
}

fn ring(corners: &[Corner]) -> polyclip::Ring {
    corners.iter().map(|&corner| corner.into()).collect()
}

/// The shape as our plan.
fn plan(shape: &Shape) -> findspot::Plan {
    match shape.kind {
        Kind::List => findspot::Plan::list(shape.rings.iter().map(|ring| [ring.iter().copied()])),
        Kind::Tree => findspot::Plan::tree(shape.rings.iter().map(|ring| ring.iter().copied())),
    }
}

fn measure_as<G: Preparable>(shape: &Shape, geometry: &G, effort: Effort) -> Measured {
    let plan = plan(shape);
    let prepare = compare_preparing(&plan, geometry, effort);
    let mut ours = findspot::Prepared::with_undo(&plan, 1).expect("the shape is a plan");
    let original = polyclip::Prepared::new(geometry);
    let points = points(shape, POINTS);
    let doubled: Vec<Corner> = points.iter().map(|&(x, y)| (2 * x + 1, 2 * y)).collect();
    Measured {
        corners: plan.corners().len(),
        rings: plan.ring_lengths().len(),
        prepare,
        locate: compare(
            &points,
            effort,
            |p| ours.locate(p.into()).number(),
            |p| number(original.locate(p.into())),
        ),
        locate_doubled: compare(
            &doubled,
            effort,
            |p| ours.locate_doubled(p.into()).number(),
            |p| number(original.locate_doubled(p.into())),
        ),
        by_rings: compare(
            &points,
            effort,
            |p| ours.locate_by_rings(p.into()).number(),
            |p| number(polyclip::query::locate(geometry, p.into())),
        ),
        correction: time_corrections(&mut ours, &moves(shape, POINTS), effort),
    }
}

/// The number that a place has, ours and the original's.
fn number(location: polyclip::Location) -> u8 {
    match location {
        polyclip::Location::Outside => 0,
        polyclip::Location::Inside => 1,
        polyclip::Location::OnBoundary => 2,
    }
}

/// Preparing by both; what is prepared is dropped outside the measured time.
fn compare_preparing<G: Preparable>(
    plan: &findspot::Plan,
    geometry: &G,
    effort: Effort,
) -> Figures {
    let ours = || {
        let (time, prepared) = timed(|| findspot::Prepared::new(black_box(plan)));
        black_box(prepared.expect("the shape is a plan"));
        time
    };
    let original = || {
        let (time, prepared) = timed(|| polyclip::Prepared::new(black_box(geometry)));
        black_box(&prepared);
        time
    };
    means_in_turn(effort, ours, original)
}

/// Look-ups by both, of as many of the points as there is time for. The replies are asserted to be the same.
fn compare(
    points: &[Corner],
    effort: Effort,
    ours: impl Fn(Corner) -> u8,
    original: impl Fn(Corner) -> u8,
) -> Figures {
    let pass = |points: &[Corner], ask: &dyn Fn(Corner) -> u8| {
        timed(|| points.iter().map(|&p| ask(p)).collect::<Vec<u8>>())
    };
    let (of_ours, _) = pass(&points[..FEWEST], &ours);
    let (of_original, _) = pass(&points[..FEWEST], &original);
    let calls = (effort.lasting / (of_ours.max(of_original) / FEWEST as f64)) as usize;
    let asked = &points[..calls.clamp(FEWEST, points.len())];
    let (replies, due) = (pass(asked, &ours).1, pass(asked, &original).1);
    assert_eq!(replies, due, "the engines reply differently");
    let passes = (calls / asked.len()).max(1);
    let sum = |ask: &dyn Fn(Corner) -> u8| {
        let all = || asked.iter().map(|&p| u64::from(ask(p))).sum::<u64>();
        let (time, sum) = timed(|| (0..passes).map(|_| all()).sum::<u64>());
        black_box(sum);
        time / (passes * asked.len()) as f64
    };
    in_turn(effort, || sum(&ours), || sum(&original))
}

/// A move and its undo.
fn time_corrections(
    prepared: &mut findspot::Prepared,
    moves: &[(usize, Corner)],
    effort: Effort,
) -> f64 {
    let mut correct = |moves: &[(usize, Corner)]| {
        let (time, ()) = timed(|| {
            for &(corner, place) in moves {
                let accepted = prepared.move_corner(corner, place.into());
                accepted.expect("a move within the range");
                prepared.undo().expect("a move to undo");
            }
        });
        time / moves.len() as f64
    };
    let calls = (effort.lasting / correct(&moves[..FEWEST])) as usize;
    let moves = &moves[..calls.clamp(FEWEST, moves.len())];
    median((0..effort.repetitions).map(|_| correct(moves)).collect())
}
