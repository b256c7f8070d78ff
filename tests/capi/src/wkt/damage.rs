//! Ways to damage Well-Known Text. Some of them leave another good text.

use crate::damage::{Damage, NUMBERS, cut, replaced};
use plans::random::Random;

/// All ways. The text has a byte.
pub const WAYS: [Damage; 4] = [change_byte, change_part, swap_parts, cut];

/// The bytes of good texts, and some that are easily taken for them.
const NEAR_BYTES: &[u8] = b"((()))   ,,,0123456789-+.eEMPTYPOLYGONMULTIZ\t\r\n";

/// Words and marks of good texts, and some that are easily taken for them.
const PIECES: &[&str] = &[
    "(",
    ")",
    ",",
    " ",
    "",
    "((",
    "))",
    "()",
    ",,",
    "EMPTY",
    " EMPTY",
    "EMPTY ",
    "(EMPTY)",
    "POLYGON",
    "MULTIPOLYGON",
    "Z",
    "0 0",
    "0 0 0",
    "(0 0)",
    "(0 0, 0 0)",
    "((0 0, 0 0))",
    ", 0 0",
    "\t",
    "\n",
    "empty",
];

fn some_byte(random: &mut Random) -> u8 {
    if random.one_in(4) {
        random.below(256) as u8
    } else {
        random.pick(NEAR_BYTES)
    }
}

/// A byte changed, left out or put in.
fn change_byte(random: &mut Random, text: &[u8]) -> Vec<u8> {
    let place = random.below(text.len());
    let (taken, given) = random.pick(&[(1, 1), (1, 0), (0, 1)]);
    replaced(text, place..place + taken, &[some_byte(random)][..given])
}

/// The words and numbers of a text, and each other byte by itself.
fn parts(text: &[u8]) -> Vec<&[u8]> {
    let in_word = |byte: &u8| byte.is_ascii_alphanumeric() || *byte == b'-';
    text.chunk_by(|a, b| in_word(a) && in_word(b)).collect()
}

/// A part changed, left out or put in.
fn change_part(random: &mut Random, text: &[u8]) -> Vec<u8> {
    let mut parts = parts(text);
    let place = random.below(parts.len());
    let pieces = random.pick(&[PIECES, NUMBERS]);
    let taken = random.below(2);
    parts.splice(place..place + taken, [random.pick(pieces).as_bytes()]);
    parts.concat()
}

fn swap_parts(random: &mut Random, text: &[u8]) -> Vec<u8> {
    let mut parts = parts(text);
    let (first, second) = (random.below(parts.len()), random.below(parts.len()));
    parts.swap(first, second);
    parts.concat()
}
