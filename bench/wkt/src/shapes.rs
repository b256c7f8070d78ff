//! The plans that are timed: as many polygons or corners as a text of 65,536 bytes has room for.

use capi::reader::LONGEST;
use capi::wkt::writer;
use plans::plan::{Plan, Point, Polygon};
use plans::random::Random;

/// A shape's name, and the shape of so many corners or polygons.
pub type Named = (&'static str, fn(usize) -> Plan);

/// All shapes, in the order of the table.
pub const SHAPES: [Named; 4] = [
    ("one ring, up to 4 digits", one_ring),
    ("squares, up to 4 digits", squares),
    ("one ring, 12 to 16 digits", long_numbers),
    ("one ring, 12 to 19 digits", longest_numbers),
];

/// The largest plan of a shape whose text is not too long.
pub fn largest(shape: fn(usize) -> Plan) -> Plan {
    let fits = |&count: &usize| writer::write(&shape(count)).len() <= LONGEST;
    let counts: Vec<usize> = (3..LONGEST / 4).collect();
    let fitting = counts.partition_point(fits);
    shape(counts[fitting - 1])
}

fn ring_of(count: usize, corner: impl FnMut(usize) -> Point) -> Plan {
    Plan::list(&[vec![(0..count).map(corner).collect()]])
}

fn one_ring(count: usize) -> Plan {
    let mut random = Random::new(1, 0);
    let mut number = || random.between(-9_999, 9_999);
    ring_of(count, |_| (number(), number()))
}

/// Small squares side by side, a polygon each.
fn squares(count: usize) -> Plan {
    let square = |number: usize| -> Polygon {
        let (x, y) = ((number % 100) as i64 * 20, (number / 100) as i64 * 20);
        vec![vec![(x, y), (x + 9, y), (x + 9, y + 9), (x, y + 9)]]
    };
    let polygons: Vec<Polygon> = (0..count).map(square).collect();
    Plan::list(&polygons)
}

/// Numbers that doubles hold, each digit of them.
fn long_numbers(count: usize) -> Plan {
    numbers_of_digits(count, 12..=16, 1)
}

/// The same, and multiples of 1,024 beyond 2^53, which doubles hold too.
fn longest_numbers(count: usize) -> Plan {
    numbers_of_digits(count, 12..=19, 1_024)
}

/// Numbers of so many digits, in turn, and of either sign.
fn numbers_of_digits(
    count: usize,
    digits: impl Iterator<Item = u32> + Clone,
    multiple: i64,
) -> Plan {
    let mut random = Random::new(2, 0);
    let mut lengths = digits.cycle();
    let mut number = || {
        let least = 10_i64.pow(lengths.next().unwrap_or(12) - 1);
        let greatest = least.saturating_mul(9).min(1 << 62);
        let number = random.between(least, greatest) / multiple * multiple;
        random.pick(&[number, -number])
    };
    ring_of(count, |_| (number(), number()))
}
