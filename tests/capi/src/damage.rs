//! Ways to damage a text. Some of them leave another good text.

use plans::random::Random;
use std::ops::Range;

/// A way to damage a text that has a line.
pub type Damage = fn(&mut Random, &[u8]) -> Vec<u8>;

/// All ways, with their names.
pub const WAYS: &[(&str, Damage)] = &[
    ("byte changed", change_byte),
    ("byte dropped", drop_byte),
    ("byte inserted", insert_byte),
    ("line dropped", drop_line),
    ("line doubled", double_line),
    ("lines swapped", swap_lines),
    ("text cut", cut),
    ("field changed", change_field),
    ("coordinate changed", change_coordinate),
    ("tab and line end exchanged", exchange_separators),
    ("number made longer", lengthen_number),
    ("carriage return added", add_carriage_return),
];

/// The bytes of good texts, and some that are easily taken for them.
const NEAR_BYTES: &[u8] = b"0123456789-+ \t\n\rplanlistreouterholenodeat";

/// The words of good texts, and some that are easily taken for them.
const WORDS: &[&str] = &[
    "", "plan", "list", "tree", "outer", "hole", "node", "at", "Plan", "OUTER", "outers", "hol",
    " node", "at ", "coin", "half",
];

/// Numbers at the ends of the range and of 64 bits, and what is easily taken for a number.
pub const NUMBERS: &[&str] = &[
    "0",
    "-1",
    "7",
    "1099511627776",
    "-1099511627776",
    "1099511627777",
    "-1099511627777",
    "9223372036854775807",
    "-9223372036854775808",
    "9223372036854775808",
    "-9223372036854775809",
    "18446744073709551616",
    "",
    "-",
    "+1",
    "-0",
    "00",
    "01",
    "-01",
    "0x1",
    "1.",
    "1e1",
    " 1",
    "1 ",
];

/// All texts that one byte changed, put in or left out makes of a text.
pub fn one_byte_away(text: &[u8]) -> Vec<Vec<u8>> {
    let mut texts = Vec::new();
    for place in 0..text.len() {
        for byte in 0..=u8::MAX {
            texts.push(replaced(text, place..place + 1, &[byte]));
            texts.push(replaced(text, place..place, &[byte]));
        }
        texts.push(replaced(text, place..place + 1, &[]));
    }
    let end = text.len();
    texts.extend((0..=u8::MAX).map(|byte| replaced(text, end..end, &[byte])));
    texts
}

/// The text with one part of it replaced.
pub fn replaced(text: &[u8], part: Range<usize>, replacement: &[u8]) -> Vec<u8> {
    [&text[..part.start], replacement, &text[part.end..]].concat()
}

fn some_byte(random: &mut Random) -> u8 {
    if random.one_in(4) {
        random.below(256) as u8
    } else {
        random.pick(NEAR_BYTES)
    }
}

fn change_byte(random: &mut Random, text: &[u8]) -> Vec<u8> {
    let place = random.below(text.len());
    replaced(text, place..place + 1, &[some_byte(random)])
}

fn drop_byte(random: &mut Random, text: &[u8]) -> Vec<u8> {
    let place = random.below(text.len());
    replaced(text, place..place + 1, &[])
}

fn insert_byte(random: &mut Random, text: &[u8]) -> Vec<u8> {
    let place = random.below(text.len() + 1);
    replaced(text, place..place, &[some_byte(random)])
}

/// The lines with their ends.
fn lines(text: &[u8]) -> Vec<&[u8]> {
    text.split_inclusive(|&byte| byte == b'\n').collect()
}

fn drop_line(random: &mut Random, text: &[u8]) -> Vec<u8> {
    let mut lines = lines(text);
    lines.remove(random.below(lines.len()));
    lines.concat()
}

fn double_line(random: &mut Random, text: &[u8]) -> Vec<u8> {
    let mut lines = lines(text);
    let place = random.below(lines.len());
    lines.insert(place, lines[place]);
    lines.concat()
}

fn swap_lines(random: &mut Random, text: &[u8]) -> Vec<u8> {
    let mut lines = lines(text);
    let (first, second) = (random.below(lines.len()), random.below(lines.len()));
    lines.swap(first, second);
    lines.concat()
}

/// The text without an end of it.
pub fn cut(random: &mut Random, text: &[u8]) -> Vec<u8> {
    text[..random.below(text.len())].to_vec()
}

/// Where the bytes stand that part fields or end lines.
fn separators(text: &[u8]) -> Vec<usize> {
    let is_separator = |&place: &usize| matches!(text[place], b'\t' | b'\n');
    (0..text.len()).filter(is_separator).collect()
}

/// Where the fields stand.
fn fields(text: &[u8]) -> Vec<Range<usize>> {
    let mut start = 0;
    let field = |end| {
        let field = start..end;
        start = end + 1;
        field
    };
    separators(text).into_iter().map(field).collect()
}

/// Where the numbers stand.
fn numbers(text: &[u8]) -> Vec<Range<usize>> {
    let is_number = |field: &Range<usize>| matches!(text[field.start], b'-' | b'0'..=b'9');
    fields(text).into_iter().filter(is_number).collect()
}

/// One of several parts, or the text's end where there is none.
fn some_part(random: &mut Random, text: &[u8], parts: &[Range<usize>]) -> Range<usize> {
    if parts.is_empty() {
        text.len()..text.len()
    } else {
        parts[random.below(parts.len())].clone()
    }
}

fn change_field(random: &mut Random, text: &[u8]) -> Vec<u8> {
    let field = some_part(random, text, &fields(text));
    replaced(text, field, random.pick(WORDS).as_bytes())
}

fn change_coordinate(random: &mut Random, text: &[u8]) -> Vec<u8> {
    let number = some_part(random, text, &numbers(text));
    replaced(text, number, random.pick(NUMBERS).as_bytes())
}

fn exchange_separators(random: &mut Random, text: &[u8]) -> Vec<u8> {
    let place = random.pick(&separators(text));
    let exchanged = if text[place] == b'\t' { b'\n' } else { b'\t' };
    replaced(text, place..place + 1, &[exchanged])
}

/// Puts up to twenty digits somewhere into a number.
fn lengthen_number(random: &mut Random, text: &[u8]) -> Vec<u8> {
    let number = some_part(random, text, &numbers(text));
    let place = number.start + random.below(number.len() + 1);
    let count = random.pick(&[1, 1, 1, 2, 6, 12, 20]);
    let digits: Vec<u8> = (0..count).map(|_| b'0' + random.below(10) as u8).collect();
    replaced(text, place..place, &digits)
}

fn add_carriage_return(random: &mut Random, text: &[u8]) -> Vec<u8> {
    let place = random.pick(&separators(text));
    replaced(text, place..place, b"\r")
}
