//! Rings on a small grid, proper and degenerate, so that points often meet corners, edges and rims.

use crate::plan::{Point, Ring};
use crate::random::Random;

type Shape = fn(&mut Random, i64) -> Ring;

/// Rings without crossings.
const SIMPLE: [Shape; 4] = [rectangle, triangle, diamond, notched];

/// Rings with nothing inside them.
const FLAT: [Shape; 5] = [
    empty,
    repeated_corner,
    two_corners,
    collinear,
    there_and_back,
];

const SMALL: [Shape; 18] = [
    rectangle,
    rectangle,
    triangle,
    diamond,
    notched,
    scattered,
    scattered,
    several_times_round,
    bow_tie,
    two_loops,
    stuttering,
    crowded_sides,
    spiked,
    empty,
    repeated_corner,
    two_corners,
    collinear,
    there_and_back,
];

type LongShape = fn(&mut Random, usize) -> Ring;

const LONG: [LongShape; 5] = [scattered_far, walk, comb, spiral, staircase];

/// A ring of few corners, of any shape.
pub fn small_ring(random: &mut Random, grid: i64) -> Ring {
    random.pick(&SMALL)(random, grid)
}

/// A ring without crossings.
pub fn simple_ring(random: &mut Random, grid: i64) -> Ring {
    random.pick(&SIMPLE)(random, grid)
}

/// A ring with nothing inside it.
pub fn flat_ring(random: &mut Random, grid: i64) -> Ring {
    random.pick(&FLAT)(random, grid)
}

/// A ring of the given number of corners.
pub fn long_ring(random: &mut Random, corners: usize) -> Ring {
    random.pick(&LONG)(random, corners)
}

/// The square with the given lower left corner and side.
pub fn square((x, y): Point, side: i64) -> Ring {
    let (right, top) = (x + side, y + side);
    vec![(x, y), (right, y), (right, top), (x, top)]
}

/// Moves a ring.
pub fn shifted(ring: &Ring, dx: i64, dy: i64) -> Ring {
    ring.iter().map(|&(x, y)| (x + dx, y + dy)).collect()
}

/// The ring gone round the other way.
pub fn reversed(ring: &Ring) -> Ring {
    ring.iter().rev().copied().collect()
}

fn corner(random: &mut Random, grid: i64) -> Point {
    (random.between(0, grid), random.between(0, grid))
}

fn corners(random: &mut Random, grid: i64, count: usize) -> Ring {
    (0..count).map(|_| corner(random, grid)).collect()
}

fn either_way_round(random: &mut Random, ring: Ring) -> Ring {
    if random.one_in(2) {
        ring
    } else {
        reversed(&ring)
    }
}

fn empty(_: &mut Random, _: i64) -> Ring {
    Vec::new()
}

fn repeated_corner(random: &mut Random, grid: i64) -> Ring {
    vec![corner(random, grid); 1 + random.below(4)]
}

fn two_corners(random: &mut Random, grid: i64) -> Ring {
    corners(random, grid, 2)
}

fn collinear(random: &mut Random, grid: i64) -> Ring {
    let (x, y) = corner(random, grid);
    let (dx, dy) = (random.between(-2, 2), random.between(-2, 2));
    let count = 3 + random.below(4);
    let place = |t: i64| (x + t * dx, y + t * dy);
    (0..count).map(|_| place(random.between(-3, 3))).collect()
}

fn there_and_back(random: &mut Random, grid: i64) -> Ring {
    let way = scattered(random, grid);
    [way.clone(), reversed(&way)].concat()
}

fn triangle(random: &mut Random, grid: i64) -> Ring {
    corners(random, grid, 3)
}

fn rectangle(random: &mut Random, grid: i64) -> Ring {
    let ((left, bottom), (right, top)) = opposite_corners(random, grid);
    let ring = vec![(left, bottom), (right, bottom), (right, top), (left, top)];
    either_way_round(random, ring)
}

/// Lower left and upper right corner of a rectangle that is neither flat nor empty.
fn opposite_corners(random: &mut Random, grid: i64) -> (Point, Point) {
    let (left, bottom) = (random.between(0, grid - 1), random.between(0, grid - 1));
    let (right, top) = (
        random.between(left + 1, grid),
        random.between(bottom + 1, grid),
    );
    ((left, bottom), (right, top))
}

fn diamond(random: &mut Random, grid: i64) -> Ring {
    let (x, y) = corner(random, grid);
    let reach = random.between(1, grid);
    let ring = vec![
        (x - reach, y),
        (x, y - reach),
        (x + reach, y),
        (x, y + reach),
    ];
    either_way_round(random, ring)
}

/// A rectangle with a rectangular notch at its upper right.
fn notched(random: &mut Random, grid: i64) -> Ring {
    let ((left, bottom), (right, top)) = opposite_corners(random, grid);
    let (x, y) = (random.between(left, right), random.between(bottom, top));
    let ring = vec![
        (left, bottom),
        (right, bottom),
        (right, y),
        (x, y),
        (x, top),
        (left, top),
    ];
    either_way_round(random, ring)
}

fn scattered(random: &mut Random, grid: i64) -> Ring {
    let count = 1 + random.below(8);
    corners(random, grid, count)
}

fn several_times_round(random: &mut Random, grid: i64) -> Ring {
    simple_ring(random, grid).repeat(2 + random.below(2))
}

/// A figure of eight that crosses itself between corners.
fn bow_tie(random: &mut Random, grid: i64) -> Ring {
    let ((left, bottom), (right, top)) = opposite_corners(random, grid);
    vec![(left, bottom), (right, top), (right, bottom), (left, top)]
}

/// A figure of eight that meets itself in a corner.
fn two_loops(random: &mut Random, grid: i64) -> Ring {
    let mut ring = square((0, 0), random.between(1, grid));
    let second = square((0, 0), -random.between(1, grid));
    ring.extend(either_way_round(random, second));
    ring.rotate_left(random.below(8));
    ring
}

/// A ring with edges of no length.
fn stuttering(random: &mut Random, grid: i64) -> Ring {
    let simple = simple_ring(random, grid);
    let repeat = |corner| vec![corner; 1 + random.below(3)];
    simple.into_iter().flat_map(repeat).collect()
}

/// A ring that runs out to a point and back at one or more of its corners.
fn spiked(random: &mut Random, grid: i64) -> Ring {
    let simple = simple_ring(random, grid);
    let spike = |from| match random.one_in(2) {
        true => vec![from, corner(random, grid), from],
        false => vec![from],
    };
    simple.into_iter().flat_map(spike).collect()
}

/// A square with corners all along its sides.
fn crowded_sides(random: &mut Random, grid: i64) -> Ring {
    let side = grid.min(6);
    let steps = 0..side;
    let bottom = steps.clone().map(|t| (t, 0));
    let right = steps.clone().map(|t| (side, t));
    let top = steps.clone().map(|t| (side - t, side));
    let left = steps.map(|t| (0, side - t));
    let ring = bottom.chain(right).chain(top).chain(left).collect();
    either_way_round(random, ring)
}

fn scattered_far(random: &mut Random, count: usize) -> Ring {
    let grid = random.between(4, 200);
    corners(random, grid, count)
}

fn walk(random: &mut Random, count: usize) -> Ring {
    let (mut x, mut y) = (0, 0);
    let reach = random.between(1, 9);
    let step = |_| {
        x += random.between(-reach, reach);
        y += random.between(-reach, reach);
        (x, y)
    };
    (0..count).map(step).collect()
}

/// Teeth of varied height over a straight base.
fn comb(random: &mut Random, count: usize) -> Ring {
    let teeth = count.saturating_sub(2) as i64;
    let height = |x: i64| if x % 2 == 0 { 1 } else { 9 };
    let tooth = |x| (x, height(x) + random.between(0, 2));
    let mut ring: Ring = (0..teeth).map(tooth).collect();
    ring.extend([(teeth, -1), (-1, -1)]);
    ring
}

/// A square spiral, closed by one long edge: its middle is gone round many times.
fn spiral(random: &mut Random, count: usize) -> Ring {
    let (mut x, mut y) = (0, 0);
    let gap = random.between(1, 4);
    let turn = |step: usize| {
        let length = gap * (step as i64 / 2 + 1);
        match step % 4 {
            0 => x += length,
            1 => y += length,
            2 => x -= length,
            _ => y -= length,
        }
        (x, y)
    };
    let ring = (0..count).map(turn).collect();
    either_way_round(random, ring)
}

/// Steps up and to the right, closed by one long edge.
fn staircase(random: &mut Random, count: usize) -> Ring {
    let (mut x, mut y) = (0, 0);
    let step = |number: usize| {
        let length = random.between(1, 4);
        if number.is_multiple_of(2) {
            x += length;
        } else {
            y += length;
        }
        (x, y)
    };
    (0..count).map(step).collect()
}
