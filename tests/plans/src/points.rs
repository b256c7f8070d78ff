//! The points that are asked of a plan: on its corners, edges and the lines through them, beside
//! them, and at the ends of the range.

use crate::plan::{DOUBLED_LIMIT, GRID_LIMIT, Mode, Plan, Point, Query, edges};
use crate::random::Random;

/// A point in integers wide enough for sums and differences of any coordinates.
type WidePoint = (i128, i128);

/// The edges of a plan and the range of its points, both doubled for doubled points.
struct View {
    edges: Vec<(WidePoint, WidePoint)>,
    limit: i64,
}

type Maker = fn(&mut Random, &View) -> WidePoint;

const MAKERS: [Maker; 17] = [
    corner,
    beside_corner,
    on_edge,
    beside_edge,
    closest_to_edge,
    closest_to_edge,
    beyond_edge,
    beside_midpoint,
    beside_midpoint,
    between_three,
    between_three,
    between_three,
    between_three,
    in_line_with_corners,
    on_rim,
    anywhere,
    at_limit,
];

/// The given number of points on either grid.
pub fn queries(random: &mut Random, plan: &Plan, count: usize) -> Vec<Query> {
    let grid = View::of(plan, 1, GRID_LIMIT);
    let doubled = View::of(plan, 2, DOUBLED_LIMIT);
    let query = |_| {
        let (mode, view) = random.pick(&[(Mode::Grid, &grid), (Mode::Doubled, &doubled)]);
        let (x, y) = point(random, view);
        Query { mode, x, y }
    };
    (0..count).map(query).collect()
}

/// The given number of points on the grid.
pub fn grid_points(random: &mut Random, plan: &Plan, count: usize) -> Vec<Point> {
    let grid = View::of(plan, 1, GRID_LIMIT);
    (0..count).map(|_| point(random, &grid)).collect()
}

/// A point of any sort.
fn point(random: &mut Random, view: &View) -> Point {
    let (x, y) = random.pick(&MAKERS)(random, view);
    (narrow(x), narrow(y))
}

/// The nearest 64-bit coordinate.
fn narrow(coordinate: i128) -> i64 {
    coordinate.clamp(i64::MIN.into(), i64::MAX.into()) as i64
}

impl View {
    fn of(plan: &Plan, factor: i128, limit: i64) -> View {
        let wide = |(x, y): Point| (factor * i128::from(x), factor * i128::from(y));
        let rings = plan.rings();
        let edges = rings.iter().flat_map(|ring| edges(ring));
        View {
            edges: edges.map(|(a, b)| (wide(a), wide(b))).collect(),
            limit,
        }
    }
}

/// An edge, or the origin where there is none.
fn edge(random: &mut Random, view: &View) -> (WidePoint, WidePoint) {
    if view.edges.is_empty() {
        ((0, 0), (0, 0))
    } else {
        random.pick(&view.edges)
    }
}

/// A corner, or the origin where there is none.
fn corner(random: &mut Random, view: &View) -> WidePoint {
    edge(random, view).0
}

fn beside((x, y): WidePoint, random: &mut Random, reach: i64) -> WidePoint {
    let mut off = || i128::from(random.between(-reach, reach));
    (x + off(), y + off())
}

fn beside_corner(random: &mut Random, view: &View) -> WidePoint {
    beside(corner(random, view), random, 2)
}

/// The point that many whole-numbered steps along an edge, as `steps` gives them from their number.
fn along((a, b): (WidePoint, WidePoint), steps: impl FnOnce(i64) -> i64) -> WidePoint {
    let (dx, dy) = (b.0 - a.0, b.1 - a.1);
    let count = common_divisor(dx, dy).divisor.max(1);
    let steps = i128::from(steps(narrow(count)));
    (a.0 + steps * (dx / count), a.1 + steps * (dy / count))
}

/// The greatest common divisor of two numbers as a sum of multiples of them.
struct CommonDivisor {
    divisor: i128,
    factors: (i128, i128),
}

/// Euclid's algorithm.
fn common_divisor(a: i128, b: i128) -> CommonDivisor {
    if b == 0 {
        return CommonDivisor {
            divisor: a.abs(),
            factors: (a.signum(), 0),
        };
    }
    let CommonDivisor { divisor, factors } = common_divisor(b, a % b);
    let (x, y) = factors;
    CommonDivisor {
        divisor,
        factors: (y, x - a / b * y),
    }
}

fn on_edge(random: &mut Random, view: &View) -> WidePoint {
    along(edge(random, view), |count| random.between(0, count))
}

fn beside_edge(random: &mut Random, view: &View) -> WidePoint {
    beside(on_edge(random, view), random, 1)
}

/// Beside an edge, as close to its line as a whole-numbered point can be without lying on it.
fn closest_to_edge(random: &mut Random, view: &View) -> WidePoint {
    let (a, b) = edge(random, view);
    let (dx, dy) = (b.0 - a.0, b.1 - a.1);
    let CommonDivisor { divisor, factors } = common_divisor(dx, dy);
    let (mut u, mut v) = (-factors.1, factors.0);
    let backwards = u.signum() * dx.signum() + v.signum() * dy.signum() < 0;
    if backwards {
        (u, v) = (u + dx / divisor, v + dy / divisor);
    }
    random.pick(&[(a.0 + u, a.1 + v), (b.0 - u, b.1 - v)])
}

/// On the line through an edge, past one of its ends.
fn beyond_edge(random: &mut Random, view: &View) -> WidePoint {
    let past = random.between(1, 3);
    let before = random.one_in(2);
    along(edge(random, view), |count| {
        if before {
            -past
        } else {
            count.saturating_add(past)
        }
    })
}

/// On or beside the middle of two corners, whether or not an edge joins them.
fn beside_midpoint(random: &mut Random, view: &View) -> WidePoint {
    let (a, b) = (corner(random, view), corner(random, view));
    let midpoint = ((a.0 + b.0).div_euclid(2), (a.1 + b.1).div_euclid(2));
    beside(midpoint, random, 1)
}

/// Amid the ends of two edges that mostly follow each other, and so often inside their ring.
fn between_three(random: &mut Random, view: &View) -> WidePoint {
    let edges = view.edges.len().max(1);
    let place = random.below(edges);
    let at = |place: usize| view.edges.get(place % edges).copied().unwrap_or_default();
    let ((a, b), (_, c)) = (at(place), at(place + 1));
    let third = |sum: i128| sum.div_euclid(3);
    (third(a.0 + b.0 + c.0), third(a.1 + b.1 + c.1))
}

/// The x of one corner and the y of another.
fn in_line_with_corners(random: &mut Random, view: &View) -> WidePoint {
    (corner(random, view).0, corner(random, view).1)
}

/// In line with a corner along one axis, anywhere along the other.
fn on_rim(random: &mut Random, view: &View) -> WidePoint {
    let ((x, y), (any_x, any_y)) = (corner(random, view), anywhere(random, view));
    if random.one_in(2) {
        (any_x, y)
    } else {
        (x, any_y)
    }
}

/// Between two corners or a little beyond them, in x and in y apart.
fn anywhere(random: &mut Random, view: &View) -> WidePoint {
    let (a, b) = (corner(random, view), corner(random, view));
    let mut part = |from, to| from + (to - from) * i128::from(random.between(-2, 10)) / 8;
    (part(a.0, b.0), part(a.1, b.1))
}

/// At an end of the range, one beyond it, or at the end of 64 bits, in one coordinate or both.
fn at_limit(random: &mut Random, view: &View) -> WidePoint {
    let limit = view.limit;
    let ends = [limit, -limit, limit + 1, -limit - 1, i64::MAX, i64::MIN];
    let (end, other) = (random.pick(&ends).into(), random.pick(&ends).into());
    let (x, y) = corner(random, view);
    random.pick(&[(end, y), (x, end), (end, other)])
}
