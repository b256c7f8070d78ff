//! Plans that depend on a seed and a number alone.

use crate::placement;
use crate::plan::{Plan, Polygon, Query, Ring};
use crate::points;
use crate::random::Random;
use crate::rings::{flat_ring, long_ring, reversed, shifted, simple_ring, small_ring, square};

/// The seed that is taken where none is given.
pub const SEED: u64 = 20_261_005;

/// How large a plan may be. A far outline may come on top of it.
#[derive(Clone, Copy)]
pub struct Size {
    pub corners: usize,
    pub rings: usize,
}

/// A plan and the points to ask of it.
#[derive(Clone, Debug)]
pub struct Case {
    pub plan: Plan,
    pub queries: Vec<Query>,
}

type Family = fn(&mut Random, Size) -> Plan;

/// Families of plans, taken in turn.
const FAMILIES: [Family; 14] = [
    single_ring,
    holed_polygon,
    overlapping_holes,
    flat_outer,
    small_list,
    neighbours,
    small_tree,
    nested_tree,
    long_ring_with_hole,
    tree_of_long_rings,
    many_polygons,
    tree_of_squares,
    sparse,
    deeply_nested,
];

/// The case of a number, with that many points.
pub fn case(seed: u64, number: usize, size: Size, queries: usize) -> Case {
    let mut random = Random::new(seed, number as u64);
    let plan = plan(&mut random, number, size);
    let queries = points::queries(&mut random, &plan, queries);
    Case { plan, queries }
}

/// A plan of the family whose turn it is.
pub fn plan(random: &mut Random, number: usize, size: Size) -> Plan {
    let family = FAMILIES[number % FAMILIES.len()];
    let plan = family(random, size);
    placement::place(random, plan)
}

fn some_grid(random: &mut Random) -> i64 {
    random.pick(&[2, 4, 8, 12, 20, 40])
}

fn single_ring(random: &mut Random, _: Size) -> Plan {
    let grid = some_grid(random);
    Plan::list(&[vec![small_ring(random, grid)]])
}

fn holed_polygon(random: &mut Random, _: Size) -> Plan {
    let grid = some_grid(random);
    Plan::list(&[polygon(random, grid)])
}

/// A polygon with up to three holes.
fn polygon(random: &mut Random, grid: i64) -> Polygon {
    let outer = if random.one_in(2) {
        simple_ring(random, grid)
    } else {
        small_ring(random, grid)
    };
    let mut rings = vec![outer.clone()];
    for _ in 0..random.below(4) {
        rings.push(hole(random, &outer, grid));
    }
    rings
}

/// A hole that may equal its outer ring, touch it, overlap it or have nothing to do with it.
fn hole(random: &mut Random, outer: &Ring, grid: i64) -> Ring {
    match random.below(8) {
        0 => outer.clone(),
        1 => reversed(outer),
        2 => shifted(outer, random.between(-2, 2), random.between(-2, 2)),
        3 => halved_towards_first_corner(outer),
        4 => on_first_edge(random, outer, grid),
        5 => simple_ring(random, grid),
        _ => small_ring(random, grid),
    }
}

/// Touches its outer ring in that ring's first corner.
fn halved_towards_first_corner(outer: &Ring) -> Ring {
    let Some(&(x, y)) = outer.first() else {
        return Vec::new();
    };
    let half_way = |&(u, v): &(i64, i64)| ((x + u).div_euclid(2), (y + v).div_euclid(2));
    outer.iter().map(half_way).collect()
}

/// Shares its outer ring's first edge.
fn on_first_edge(random: &mut Random, outer: &Ring, grid: i64) -> Ring {
    let mut ring: Ring = outer.iter().copied().take(2).collect();
    ring.push((random.between(0, grid), random.between(0, grid)));
    ring
}

/// Holes that lie on each other, in any order.
fn overlapping_holes(random: &mut Random, _: Size) -> Plan {
    let outer = square((0, 0), 12);
    let first = shifted(&simple_ring(random, 6), 3, 3);
    let second = shifted(&first, random.between(0, 2), random.between(0, 2));
    let third = shifted(&small_ring(random, 6), 3, 3);
    let mut holes = vec![first, second, third];
    random.shuffle(&mut holes);
    holes.insert(0, outer);
    Plan::list(&[holes])
}

/// Polygons whose outer ring has nothing inside it, with holes that have.
fn flat_outer(random: &mut Random, _: Size) -> Plan {
    let grid = some_grid(random);
    let mut polygons = Vec::new();
    for _ in 0..1 + random.below(3) {
        let outer = flat_ring(random, grid);
        polygons.push(vec![outer, simple_ring(random, grid)]);
    }
    if random.one_in(2) {
        polygons.push(polygon(random, grid));
    }
    random.shuffle(&mut polygons);
    Plan::list(&polygons)
}

/// A list of polygons that may overlap, or of none.
fn small_list(random: &mut Random, _: Size) -> Plan {
    let grid = some_grid(random);
    let count = random.below(7);
    let polygons: Vec<Polygon> = (0..count).map(|_| polygon(random, grid)).collect();
    Plan::list(&polygons)
}

/// Copies of one polygon that lie on each other or share a side.
fn neighbours(random: &mut Random, _: Size) -> Plan {
    let grid = some_grid(random);
    let first = polygon(random, grid);
    let copies = 2 + random.below(4);
    let copy = |_| {
        let (dx, dy) = (random.between(0, 2) * grid, random.between(0, 1) * grid);
        first.iter().map(|ring| shifted(ring, dx, dy)).collect()
    };
    let polygons: Vec<Polygon> = (0..copies).map(copy).collect();
    Plan::list(&polygons)
}

/// A tree of rings that may overlap or be equal, or of none.
fn small_tree(random: &mut Random, _: Size) -> Plan {
    let grid = some_grid(random);
    let mut rings: Vec<Ring> = Vec::new();
    for _ in 0..random.below(8) {
        let ring = match rings.last() {
            Some(last) if random.one_in(4) => last.clone(),
            _ => small_ring(random, grid),
        };
        rings.push(ring);
    }
    Plan::tree(&rings)
}

/// Squares inside each other, in any order; on the left, every other one touches the next larger.
fn nested_tree(random: &mut Random, _: Size) -> Plan {
    let count = 2 + random.below(8) as i64;
    let gap = random.between(1, 4);
    let inset = |k: i64| square((k / 2 * gap, k * gap), 2 * (count - k) * gap);
    let mut rings: Vec<Ring> = (0..count).map(inset).collect();
    if random.one_in(2) {
        rings.push(small_ring(random, 2 * count * gap));
    }
    random.shuffle(&mut rings);
    Plan::tree(&rings)
}

/// A number of corners up to `most`, few or many.
fn some_length(random: &mut Random, most: usize) -> usize {
    let mut bounds = [12, 24, 70, 140, 530, most]
        .map(|bound| bound.min(most))
        .to_vec();
    bounds.dedup();
    let bound = random.pick(&bounds);
    bound - random.below(bound / 3)
}

fn long_ring_with_hole(random: &mut Random, size: Size) -> Plan {
    let corners = some_length(random, size.corners - 12);
    let mut rings = vec![long_ring(random, corners)];
    if random.one_in(2) {
        rings.push(simple_ring(random, 12));
    }
    Plan::list(&[rings])
}

fn tree_of_long_rings(random: &mut Random, size: Size) -> Plan {
    let count = 1 + random.below(3);
    let corners = some_length(random, size.corners / count);
    let rings: Vec<Ring> = (0..count).map(|_| long_ring(random, corners)).collect();
    Plan::tree(&rings)
}

/// A list of many polygons, laid out beside each other or in a heap.
fn many_polygons(random: &mut Random, size: Size) -> Plan {
    let spread = random.pick(&[1, 5, 10]);
    let most = (size.corners / 12).min(size.rings / 2);
    let count = 3 + random.below(most - 3);
    let polygon = |number: usize| {
        let (column, row) = ((number % 6) as i64, (number / 6) as i64);
        let mut ring = |grid| shifted(&simple_ring(random, grid), column * spread, row * spread);
        vec![ring(10), ring(5)]
    };
    let polygons: Vec<Polygon> = (0..count).map(polygon).collect();
    Plan::list(&polygons)
}

/// A tree of many squares, laid out beside each other or in a heap.
fn tree_of_squares(random: &mut Random, size: Size) -> Plan {
    let most = size.rings.min(size.corners / 4);
    let count = 4 + random.below(most - 4);
    let reach = random.between(2, 40);
    let some_square = |_| {
        let place = (random.between(0, reach), random.between(0, reach));
        square(place, random.between(1, 20))
    };
    let rings: Vec<Ring> = (0..count).map(some_square).collect();
    Plan::tree(&rings)
}

/// Rings of which most are empty or have one corner or two, as a tree or as polygons of any number of them.
fn sparse(random: &mut Random, _: Size) -> Plan {
    let grid = some_grid(random);
    let mut polygons: Vec<Polygon> = Vec::new();
    for _ in 0..1 + random.below(12) {
        let ring = if random.one_in(3) {
            small_ring(random, grid)
        } else {
            flat_ring(random, grid)
        };
        match polygons.last_mut() {
            Some(polygon) if random.one_in(2) => polygon.push(ring),
            _ => polygons.push(vec![ring]),
        }
    }
    if random.one_in(2) {
        Plan::list(&polygons)
    } else {
        Plan::tree(&polygons.concat())
    }
}

/// Squares inside each other, so that a ray meets most of the rings: as a tree, as polygons with a hole each, or in a heap.
fn deeply_nested(random: &mut Random, size: Size) -> Plan {
    let most = size.rings.min(size.corners / 4);
    let count = (most - random.below(most / 2)) as i64;
    let gap = random.between(0, 2);
    let inset = |k: i64| square((k * gap, k * gap), 2 * (count - k) * gap.max(1));
    let mut rings: Vec<Ring> = (0..count).map(inset).collect();
    match random.below(3) {
        0 => Plan::tree(&rings),
        1 => Plan::list(&rings.chunks(2).map(<[Ring]>::to_vec).collect::<Vec<_>>()),
        _ => {
            random.shuffle(&mut rings);
            Plan::list(&rings.into_iter().map(|ring| vec![ring]).collect::<Vec<_>>())
        }
    }
}
