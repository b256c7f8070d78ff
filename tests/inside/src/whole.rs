//! Whole numbers of any size, by digits as on paper: wide enough for whatever is computed of them.

use std::cmp::Ordering;
use std::ops::{Mul, Sub};

/// A sign, and digits to the base 2^32, the lowest first and the highest not 0. Zero has no digits and is not negative.
#[derive(Clone, Debug, PartialEq, Eq)]
pub struct Whole {
    negative: bool,
    digits: Vec<u32>,
}

impl Whole {
    fn new(negative: bool, mut digits: Vec<u32>) -> Whole {
        while digits.last() == Some(&0) {
            digits.pop();
        }
        Whole {
            negative: negative && !digits.is_empty(),
            digits,
        }
    }

    /// How it lies to zero: -1, 0 or 1.
    pub fn sign(&self) -> i64 {
        match (self.negative, self.digits.is_empty()) {
            (true, _) => -1,
            (false, true) => 0,
            (false, false) => 1,
        }
    }
}

impl From<u128> for Whole {
    fn from(number: u128) -> Whole {
        let digits = (0..4).map(|place| (number >> (32 * place)) as u32);
        Whole::new(false, digits.collect())
    }
}

impl From<i64> for Whole {
    fn from(number: i64) -> Whole {
        let size = Whole::from(u128::from(number.unsigned_abs()));
        Whole::new(number < 0, size.digits)
    }
}

impl Sub for &Whole {
    type Output = Whole;

    fn sub(self, other: &Whole) -> Whole {
        if self.negative != other.negative {
            return Whole::new(self.negative, sum(&self.digits, &other.digits));
        }
        match order(&self.digits, &other.digits) {
            Ordering::Less => Whole::new(!self.negative, rest(&other.digits, &self.digits)),
            _ => Whole::new(self.negative, rest(&self.digits, &other.digits)),
        }
    }
}

impl Mul for &Whole {
    type Output = Whole;

    fn mul(self, other: &Whole) -> Whole {
        let mut digits = vec![0; self.digits.len() + other.digits.len()];
        for (shift, &digit) in self.digits.iter().enumerate() {
            let mut carry = 0;
            for (place, &by) in other.digits.iter().enumerate() {
                let column =
                    u64::from(digit) * u64::from(by) + u64::from(digits[shift + place]) + carry;
                digits[shift + place] = column as u32;
                carry = column >> 32;
            }
            digits[shift + other.digits.len()] = carry as u32;
        }
        Whole::new(self.negative != other.negative, digits)
    }
}

fn at(digits: &[u32], place: usize) -> u64 {
    digits.get(place).copied().map_or(0, u64::from)
}

fn order(a: &[u32], b: &[u32]) -> Ordering {
    let highest_first = || a.iter().rev().cmp(b.iter().rev());
    a.len().cmp(&b.len()).then_with(highest_first)
}

fn sum(a: &[u32], b: &[u32]) -> Vec<u32> {
    let mut carry = 0;
    (0..=a.len().max(b.len()))
        .map(|place| {
            let column = at(a, place) + at(b, place) + carry;
            carry = column >> 32;
            column as u32
        })
        .collect()
}

/// What is left of the greater number once the lesser is taken away.
fn rest(greater: &[u32], lesser: &[u32]) -> Vec<u32> {
    let mut taken = 0;
    (0..greater.len())
        .map(|place| {
            let column = (1 << 32) + at(greater, place) - at(lesser, place) - taken;
            taken = 1 - (column >> 32);
            column as u32
        })
        .collect()
}
