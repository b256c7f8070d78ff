//! Single texts: what item 10 refuses and what it accepts, one reason at a time.

use capi::entry::locate_text;
use capi::expected;
use capi::reader::{LONGEST, Refusal, read};
use plans::plan::{GRID_LIMIT, Point, within};

/// Texts that break item 10, with the first line that does.
const REFUSED: &[(&[u8], usize)] = &[
    // No line, or a last one without its end.
    (b"", 1),
    (b"plan", 1),
    (b"plan\tlist", 1),
    (b"plan\nouter", 2),
    (b"plan\nouter\nat\t0\t0", 3),
    (b"plan\nouter\nat\t0\t", 3),
    (b"plan\nouter\nat\t0\t-", 3),
    (b"plan\nouter\nat\t0\t0\n\t", 4),
    // Blank lines.
    (b"\n", 1),
    (b"\nplan\n", 1),
    (b"plan\n\n", 2),
    (b"plan\n\nouter\n", 2),
    (b"plan\nouter\n\nat\t0\t0\n", 3),
    (b"plan\nouter\nat\t0\t0\n\n", 4),
    // Carriage returns.
    (b"plan\r\n", 1),
    (b"plan\r", 1),
    (b"plan\tlist\r\nouter\r\n", 1),
    (b"plan\nouter\r\n", 2),
    (b"plan\nouter\nat\t0\t0\r\n", 3),
    // Spaces.
    (b" plan\n", 1),
    (b"plan \n", 1),
    (b"plan list\n", 1),
    (b"plan\t list\n", 1),
    (b"plan\n outer\n", 2),
    (b"plan\nouter \n", 2),
    (b"plan\nouter\nat 0 0\n", 3),
    (b"plan\nouter\nat\t0 0\n", 3),
    (b"plan\nouter\nat\t0\t0 \n", 3),
    // Fields too many, too few or empty.
    (b"\tplan\n", 1),
    (b"plan\t\n", 1),
    (b"plan\tlist\t\n", 1),
    (b"plan\t\tlist\n", 1),
    (b"plan\tlist\ttree\n", 1),
    (b"plan\n\touter\n", 2),
    (b"plan\nouter\t\n", 2),
    (b"plan\nouter\t0\t0\n", 2),
    (b"plan\nouter\nhole\t\n", 3),
    (b"plan\ttree\nnode\t\n", 2),
    (b"plan\nouter\nat\n", 3),
    (b"plan\nouter\nat\t0\n", 3),
    (b"plan\nouter\nat\t0\t0\t\n", 3),
    (b"plan\nouter\nat\t\t0\t0\n", 3),
    (b"plan\nouter\nat\t0\t0\t0\n", 3),
    (b"plan\nouter\n\tat\t0\t0\n", 3),
    // Unknown words.
    (b"pla\n", 1),
    (b"plans\n", 1),
    (b"plan\tforest\n", 1),
    (b"plan\tlis\n", 1),
    (b"plan\ttrees\n", 1),
    (b"plan\nring\n", 2),
    (b"plan\noute\n", 2),
    (b"plan\nouters\n", 2),
    (b"plan\nouter\nholes\n", 3),
    (b"plan\nouter\na\t0\t0\n", 3),
    (b"plan\nouter\ncoin\t0\t0\n", 3),
    (b"plan\nouter\n0\t0\n", 3),
    // Capitals.
    (b"Plan\n", 1),
    (b"PLAN\n", 1),
    (b"plan\tList\n", 1),
    (b"plan\tTREE\n", 1),
    (b"plan\nOuter\n", 2),
    (b"plan\nouter\nHOLE\n", 3),
    (b"plan\ttree\nNode\n", 2),
    (b"plan\nouter\nAt\t0\t0\n", 3),
    // A line in the wrong place.
    (b"plan\nhole\n", 2),
    (b"plan\nhole\nouter\n", 2),
    (b"plan\nat\t0\t0\n", 2),
    (b"plan\ttree\nat\t0\t0\n", 2),
    (b"plan\nnode\n", 2),
    (b"plan\tlist\nouter\nnode\n", 3),
    (b"plan\ttree\nouter\n", 2),
    (b"plan\ttree\nhole\n", 2),
    (b"plan\ttree\nnode\nhole\n", 3),
    (b"plan\nplan\n", 2),
    (b"plan\tlist\nouter\nplan\ttree\n", 3),
    (b"outer\n", 1),
    (b"node\nplan\ttree\n", 1),
    (b"list\n", 1),
    // Bytes that no text has.
    (b"\0", 1),
    (b"\xff", 1),
    (b"plan\0\n", 1),
    (b"plan\nouter\nat\t0\t0\n\0\n", 4),
    (b"plan\nouter\nat\t0\t\xff\n", 3),
    (b"plan\nouter\nat\t0\t\xb1\n", 3),
];

/// Fields that are no decimal number of 64 bits in its one form.
const NO_NUMBERS: &[&str] = &[
    "",
    "-",
    "+",
    "+1",
    "+0",
    "-0",
    "00",
    "-00",
    "01",
    "-01",
    "--1",
    "-+1",
    "1-",
    "9223372036854775808",
    "-9223372036854775809",
    "9223372036854775810",
    "10000000000000000000",
    "-10000000000000000000",
    "18446744073709551615",
    "18446744073709551616",
    "18446744073709551617",
    "-18446744073709551616",
    "99999999999999999999999",
    "340282366920938463463374607431768211456",
    "0x10",
    "ff",
    "1e3",
    "1.0",
    "1,000",
    "1_000",
    " 1",
    "1 ",
    "\u{2212}1",
    "\u{0663}",
];

/// Numbers of every length and sign, the ends of 64 bits among them.
const NUMBERS: &[i64] = &[
    0,
    1,
    -1,
    9,
    10,
    -10,
    100,
    -9_007,
    GRID_LIMIT,
    -GRID_LIMIT,
    GRID_LIMIT + 1,
    -GRID_LIMIT - 1,
    i64::MAX,
    i64::MIN,
];

/// Texts that are plans, with a point and its reply.
const ACCEPTED: &[(&[u8], Point, i64)] = &[
    (b"plan\n", (0, 0), 0),
    (b"plan\tlist\n", (0, 0), 0),
    (b"plan\ttree\n", (0, 0), 0),
    (b"plan\nouter\n", (0, 0), 0),
    (b"plan\nouter\nhole\nhole\nouter\n", (0, 0), 0),
    (b"plan\ttree\nnode\nnode\n", (0, 0), 0),
    (b"plan\nouter\nat\t0\t0\n", (0, 0), 2),
    (b"plan\nouter\nouter\nat\t0\t0\n", (0, 0), 2),
    (b"plan\nouter\nhole\nat\t0\t0\n", (0, 0), 0),
    (b"plan\ttree\nnode\nat\t0\t0\n", (0, 0), 2),
    (b"plan\nouter\nat\t-3\t-4\nat\t5\t12\n", (1, 4), 2),
    (b"plan\nouter\nat\t-3\t-4\nat\t5\t12\n", (1, 5), 0),
];

/// A ring of one corner.
fn corner(x: &str, y: &str) -> Vec<u8> {
    format!("plan\nouter\nat\t{x}\t{y}\n").into_bytes()
}

fn assert_refused(text: &[u8], line: usize) {
    let shown = text[..text.len().min(80)].escape_ascii();
    assert_eq!(read(text), Err(Refusal::Line(line)), "{shown}");
    assert_eq!(locate_text(text, (0, 0)), -2, "{shown}");
}

#[test]
fn texts_that_break_the_rules_are_refused() {
    for &(text, line) in REFUSED {
        assert_refused(text, line);
    }
}

#[test]
fn what_is_no_number_is_refused() {
    for field in NO_NUMBERS {
        assert_refused(&corner(field, "0"), 3);
        assert_refused(&corner("0", field), 3);
    }
}

#[test]
fn numbers_of_64_bits_are_read_exactly_in_range_and_accepted_beyond_it() {
    for &x in NUMBERS {
        for &y in NUMBERS {
            assert_read_exactly((x, y));
        }
    }
}

/// A point is on the boundary of the ring that it is the only corner of, and no point beside it is. Out of range both are outside, which
/// shows that the numbers are taken and no more.
fn assert_read_exactly((x, y): Point) {
    let text = corner(&x.to_string(), &y.to_string());
    let in_range = within(x, GRID_LIMIT) && within(y, GRID_LIMIT);
    let on_corner = if in_range { 2 } else { 0 };
    let beside = (x.wrapping_add(1), y.wrapping_sub(1));
    assert_eq!(locate_text(&text, (x, y)), on_corner, "{x} {y}");
    assert_eq!(locate_text(&text, beside), 0, "{x} {y}");
}

#[test]
fn plans_are_accepted() {
    for &(text, point, reply) in ACCEPTED {
        let shown = text.escape_ascii();
        assert_eq!(locate_text(text, point), reply, "{shown}");
        assert_eq!(expected::answers(text, &[point]), [reply], "{shown}");
    }
}

#[test]
fn one_byte_over_and_over_is_refused() {
    for byte in 0..=u8::MAX {
        assert_refused(&vec![byte; LONGEST], 1);
        assert_eq!(locate_text(&vec![byte; LONGEST + 1], (0, 0)), -1);
    }
}

#[test]
fn a_number_as_long_as_the_text_allows_is_refused() {
    for digit in ["0", "1", "9", "-"] {
        let rest = corner("", "0").len();
        assert_refused(&corner(&digit.repeat(LONGEST - rest), "0"), 3);
    }
}
