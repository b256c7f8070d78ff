//! Plans and points that depend on a seed alone, for the tests beside this folder.
#![allow(dead_code, reason = "each test file takes what it needs")]

use findspot::{Kind, MAX_COORD, Plan, Point, Prepared};

/// A stream of numbers (splitmix64).
pub struct Random(u64);

impl Random {
    pub fn new(seed: u64) -> Random {
        Random(seed)
    }

    fn next(&mut self) -> u64 {
        self.0 = self.0.wrapping_add(0x9e37_79b9_7f4a_7c15);
        let z = (self.0 ^ (self.0 >> 30)).wrapping_mul(0xbf58_476d_1ce4_e5b9);
        let z = (z ^ (z >> 27)).wrapping_mul(0x94d0_49bb_1331_11eb);
        z ^ (z >> 31)
    }

    /// A number from 0 to `count` - 1.
    pub fn below(&mut self, count: usize) -> usize {
        (self.next() % count as u64) as usize
    }

    /// A number from `low` to `high`, ends included.
    pub fn between(&mut self, low: i64, high: i64) -> i64 {
        low + (self.next() % (high.abs_diff(low) + 1)) as i64
    }

    /// One of several items.
    pub fn pick<T: Copy>(&mut self, items: &[T]) -> T {
        items[self.below(items.len())]
    }
}

/// How a plan's corners are spread, and where it lies.
#[derive(Clone, Copy)]
struct Spread {
    width: i64,
    scale: i64,
    shift: i64,
}

/// A plan: small or often cut, on a coarse grid so that corners and edges meet, some of it stretched to the ends of the range.
pub fn plan(random: &mut Random) -> Plan {
    let width = random.pick(&[2, 5, 12, 40, 1_000]);
    let scale = random.pick(&[1, 1, 1, 7, MAX_COORD / width / 2]);
    let shift = random.pick(&[0, 0, -width / 2, -width]);
    let spread = Spread {
        width,
        scale,
        shift,
    };
    let rings = random.pick(&[0, 1, 1, 2, 3, 8, 40, 300]);
    let rings: Vec<Vec<Point>> = (0..rings).map(|_| ring(random, spread)).collect();
    match random.below(3) {
        0 => Plan::tree(rings),
        _ => Plan::list(polygons(random, rings)),
    }
}

fn ring(random: &mut Random, spread: Spread) -> Vec<Point> {
    let corners = match random.below(8) {
        0 => random.below(3),
        7 => random.below(200),
        _ => 3 + random.below(6),
    };
    let (x, y) = (
        random.between(0, spread.width),
        random.between(0, spread.width),
    );
    let reach = random.pick(&[2, 3, spread.width]);
    let corner = |_| {
        let x = x + random.between(0, reach);
        let y = y + random.between(0, reach);
        place(spread, x, y)
    };
    (0..corners).map(corner).collect()
}

fn place(spread: Spread, x: i64, y: i64) -> Point {
    let on_axis = |c: i64| {
        let c = (c.min(spread.width) + spread.shift) * spread.scale;
        c.clamp(-MAX_COORD, MAX_COORD)
    };
    Point::new(on_axis(x), on_axis(y))
}

/// Rings made into polygons of one to four of them.
fn polygons(random: &mut Random, rings: Vec<Vec<Point>>) -> Vec<Vec<Vec<Point>>> {
    let mut polygons: Vec<Vec<Vec<Point>>> = Vec::new();
    for ring in rings {
        match polygons.last_mut() {
            Some(polygon) if polygon.len() < 4 && random.below(2) == 0 => polygon.push(ring),
            _ => polygons.push(vec![ring]),
        }
    }
    polygons
}

/// A point to ask about: at, beside or between corners, or somewhere in their extent, or at the range's ends and beyond.
pub fn point(random: &mut Random, corners: &[Point]) -> Point {
    if corners.is_empty() || random.below(12) == 0 {
        let ends = [0, 1, -1, MAX_COORD, -MAX_COORD, MAX_COORD + 1, i64::MIN];
        return Point::new(random.pick(&ends), random.pick(&ends));
    }
    let (a, b) = (random.pick(corners), random.pick(corners));
    match random.below(4) {
        0 => a,
        1 => Point::new(a.x, b.y),
        2 => Point::new(middle(a.x, b.x), middle(a.y, b.y)),
        _ => Point::new(a.x + random.between(-2, 2), a.y + random.between(-2, 2)),
    }
}

fn middle(a: i64, b: i64) -> i64 {
    a + (b - a) / 2
}

/// Twice a point, or next to it; far beyond the range as it is.
pub fn doubled(random: &mut Random, point: Point) -> Point {
    let twice = |c: i64| c.saturating_mul(2);
    let (x, y) = (twice(point.x), twice(point.y));
    Point::new(
        x.saturating_add(random.between(-1, 1)),
        y.saturating_add(random.between(-1, 1)),
    )
}

/// A place to move a corner to, in range.
pub fn new_place(random: &mut Random, corners: &[Point]) -> Point {
    let place = point(random, corners);
    let on_axis = |c: i64| c.clamp(-MAX_COORD, MAX_COORD);
    Point::new(on_axis(place.x), on_axis(place.y))
}

/// Asserts that two prepared plans reply alike to some points on both grids, through the boxes and ring by ring.
pub fn assert_alike(random: &mut Random, one: &Prepared, other: &Prepared, points: usize) {
    for _ in 0..points {
        let p = point(random, one.corners());
        let place = one.locate(p);
        assert_eq!(place, one.locate_by_rings(p), "{p:?} of {:?}", one.plan());
        assert_eq!(place, other.locate(p), "{p:?} of {:?}", one.plan());
        let twice = doubled(random, p);
        let place = one.locate_doubled(twice);
        assert_eq!(
            place,
            one.locate_doubled_by_rings(twice),
            "twice the point: {twice:?} of {:?}",
            one.plan()
        );
        assert_eq!(
            place,
            other.locate_doubled(twice),
            "twice the point: {twice:?} of {:?}",
            one.plan()
        );
    }
}

/// The text of a plan that is not refused.
pub fn text_of(plan: &Plan, bare: bool) -> Vec<u8> {
    let mut lines = vec![match (plan.kind(), bare) {
        (Kind::List, true) => "plan".to_string(),
        (Kind::List, false) => "plan\tlist".to_string(),
        (Kind::Tree, _) => "plan\ttree".to_string(),
    }];
    let words = match plan.kind() {
        Kind::Tree => vec!["node"; plan.ring_lengths().len()],
        Kind::List => plan.ring_counts().iter().flat_map(|&n| words(n)).collect(),
    };
    let mut corners = plan.corners().iter();
    for (word, &length) in words.iter().zip(plan.ring_lengths()) {
        lines.push(word.to_string());
        lines.extend(
            corners
                .by_ref()
                .take(length)
                .map(|p| format!("at\t{}\t{}", p.x, p.y)),
        );
    }
    lines
        .iter()
        .flat_map(|line| format!("{line}\n").into_bytes())
        .collect()
}

fn words(rings: usize) -> Vec<&'static str> {
    let word = |ring| if ring == 0 { "outer" } else { "hole" };
    (0..rings).map(word).collect()
}
