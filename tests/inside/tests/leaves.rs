//! The leaves on which every reply rests and whose faults no reply would show, against whole numbers wide enough.

use inside::calls::{Halves, Pair, Turn, Words, halves, pair, product, subtract, turn, turn_words};
use inside::whole::Whole;

/// The ends of the ranges and of 64 bits, and what lies beside them.
const NUMBERS: [i64; 17] = [
    i64::MIN,
    i64::MIN + 1,
    -(1 << 41),
    -(1 << 40) - 1,
    -(1 << 40),
    -3,
    -2,
    -1,
    0,
    1,
    2,
    3,
    1 << 40,
    (1 << 40) + 1,
    1 << 41,
    i64::MAX - 1,
    i64::MAX,
];

/// Fewer, for the three points of a turn: among them the ends of 63 bits.
const CORNERS: [i64; 9] = [
    i64::MIN,
    -(1 << 62),
    -(1 << 41),
    -1,
    0,
    1 << 41,
    (1 << 62) - 1,
    1 << 62,
    i64::MAX,
];

type Point = [i64; 2];

/// The exact difference of two numbers of 64 bits.
fn difference(a: i64, b: i64) -> Whole {
    &Whole::from(a) - &Whole::from(b)
}

/// Twice the signed area of the triangle.
fn turn_of([p, q, r]: [Point; 3]) -> Whole {
    let one = &difference(q[0], p[0]) * &difference(r[1], p[1]);
    let other = &difference(q[1], p[1]) * &difference(r[0], p[0]);
    &one - &other
}

/// hi * 2^64 + lo.
fn size([high, low]: [u64; 2]) -> u128 {
    u128::from(high) << 64 | u128::from(low)
}

/// What two words stand for: their size, less 2^128 where the word above was borrowed from.
fn value(words: Words) -> Whole {
    let size = Whole::from(size([words.high, words.low]));
    if words.borrow {
        let square = &Whole::from(1_u128 << 64) * &Whole::from(1_u128 << 64);
        return &size - &square;
    }
    size
}

/// What one word stands for, likewise.
fn word_value(pair: Pair) -> Whole {
    let size = Whole::from(u128::from(pair.word));
    if pair.borrow {
        return &size - &Whole::from(1_u128 << 64);
    }
    size
}

/// (2^64 - 1)^2, the largest product of two differences and twice the area of the largest triangle.
fn largest() -> Whole {
    let longest = difference(i64::MAX, i64::MIN);
    &longest * &longest
}

/// Every choice of three points with coordinates among the corners'.
fn triangles() -> impl Iterator<Item = [Point; 3]> {
    let count = CORNERS.len();
    let corner = move |code: usize, place: u32| CORNERS[code / count.pow(place) % count];
    let point = move |code, place| [corner(code, place), corner(code, place + 1)];
    (0..count.pow(6)).map(move |code| [point(code, 0), point(code, 2), point(code, 4)])
}

/// r = p + t (q - p) for some t from 0 to 1, by fractions and not by a turn.
fn on_closed_segment(p: Point, q: Point, r: Point) -> bool {
    let Some(axis) = (0..2).find(|&axis| p[axis] != q[axis]) else {
        return r == p;
    };
    let other = 1 - axis;
    let between = p[axis].min(q[axis]) <= r[axis] && r[axis] <= p[axis].max(q[axis]);
    let part = &difference(r[axis], p[axis]) * &difference(q[other], p[other]);
    between && part == &difference(r[other], p[other]) * &difference(q[axis], p[axis])
}

fn span(points: [Point; 2], axis: usize) -> (i64, i64) {
    let [a, b] = points.map(|point| point[axis]);
    (a.min(b), a.max(b))
}

fn holds(points: [Point; 2], point: Point) -> bool {
    (0..2).all(|axis| {
        let (low, high) = span(points, axis);
        low <= point[axis] && point[axis] <= high
    })
}

fn share(points: [Point; 2], others: [Point; 2]) -> bool {
    (0..2).all(|axis| {
        let (a, b) = span(points, axis);
        let (c, d) = span(others, axis);
        a.max(c) <= b.min(d)
    })
}

#[test]
fn halves_and_ranges() {
    for z in NUMBERS {
        let wide = i128::from(z);
        let due = Halves {
            floor: wide.div_euclid(2) as i64,
            ceiling: (wide + 1).div_euclid(2) as i64,
            in_range: wide.abs() <= 1 << 40,
            in_doubled_range: wide.abs() <= 1 << 41,
        };
        assert_eq!(halves(z), due, "{z}");
    }
}

#[test]
fn pairs() {
    for a in NUMBERS {
        for b in NUMBERS {
            let found = pair(a, b);
            assert_eq!([found.least, found.greatest], [a.min(b), a.max(b)]);
            assert_eq!(word_value(found), difference(a, b), "{a} {b}");
        }
    }
}

/// The words of a product of two differences, for all pairs of the numbers, up to the largest product of either sign.
#[test]
fn words_of_products() {
    let pairs = || NUMBERS.into_iter().flat_map(|a| NUMBERS.map(|b| [a, b]));
    let mut found = [false; 2];
    for one in pairs() {
        for other in pairs() {
            let due = &difference(one[0], one[1]) * &difference(other[0], other[1]);
            assert_eq!(value(product(one, other)), due, "{one:?} {other:?}");
            found[0] |= due == largest();
            found[1] |= due == &Whole::from(0_i64) - &largest();
        }
    }
    assert_eq!(found, [true; 2], "the largest products were not among them");
}

#[test]
fn turns() {
    for points in triangles() {
        let [p, q, r] = points;
        let due = Turn {
            sign: turn_of(points).sign(),
            on_segment: on_closed_segment(p, q, r),
            in_box: holds([p, q], r),
            meets: share([p, q], [q, r]),
            holds: holds([p, q], p) && holds([p, q], r),
        };
        assert_eq!(turn(points), due, "{points:?}");
    }
}

/// The words of a turn and their borrow, of any points (document 02, R-2), up to twice the area of the largest triangle, to either side.
#[test]
fn words_of_turns() {
    let mut found = [false; 2];
    for points in triangles() {
        let due = turn_of(points);
        assert_eq!(value(turn_words(points)), due, "{points:?}");
        found[0] |= due == largest();
        found[1] |= due == &Whole::from(0_i64) - &largest();
    }
    assert_eq!(found, [true; 2], "the largest triangle was not among them");
}

/// Of doubled points the two words alone, read as a signed number, are the turn.
#[test]
fn words_of_doubled_turns() {
    let in_range = |points: &[Point; 3]| {
        points
            .as_flattened()
            .iter()
            .all(|z| z.abs_diff(0) <= 1 << 41)
    };
    for points in triangles().filter(in_range) {
        let [[ax, ay], [bx, by], [cx, cy]] = points.map(|point| point.map(i128::from));
        let words = turn_words(points);
        let due = (bx - ax) * (cy - ay) - (by - ay) * (cx - ax);
        assert_eq!(size([words.high, words.low]) as i128, due, "{points:?}");
        assert_eq!(words.borrow, words.high >> 63 == 1, "{points:?}");
    }
}

/// The words of a difference and their borrow, for every two sizes whose words are among the numbers.
#[test]
fn words_of_differences() {
    let words = NUMBERS.map(|number| number as u64);
    let sizes: Vec<[u64; 2]> = words
        .iter()
        .flat_map(|&high| words.map(|low| [high, low]))
        .collect();
    for &one in &sizes {
        for &other in &sizes {
            let due = &Whole::from(size(one)) - &Whole::from(size(other));
            assert_eq!(value(subtract(one, other)), due, "{one:?} {other:?}");
        }
    }
}
