//! Texts read into lent tables, in guarded memory, against the reader that is written from item 10 alone: as written, damaged, largest, and
//! with tables that are too short. Lines of texts, and N(n).

use capi::damage::WAYS;
use capi::lent::Trials;
use capi::prepared;
use capi::reader::{self, LONGEST};
use capi::reading::{Span, judged, line, needed, node_count, read_plan};
use capi::writer::{headers, write};
use plans::generate::{self, SEED, Size};
use plans::random::Random;
use std::collections::BTreeMap;

const PLANS: usize = 400;

/// Plans small enough for damage to be felt.
const SIZE: Size = Size {
    corners: 60,
    rings: 12,
};

/// Looks for lines of a text: each has to be the part of it that stands between two line ends.
fn find_lines(trials: &mut Trials, text: &[u8]) {
    trials.hold(text);
    let mut offset = 0;
    let pieces = text.split(|&byte| byte == b'\n');
    let mut last = 0;
    for (k, piece) in (1..).zip(pieces) {
        let length = piece.len();
        assert_eq!(line(trials.text(), k), Span { offset, length });
        offset += length + 1;
        last = k;
    }
    for k in [0, last + 1, last + 2, usize::MAX] {
        let none = Span {
            offset: 0,
            length: 0,
        };
        assert_eq!(line(trials.text(), k), none, "line {k}");
    }
}

#[test]
fn generated_and_damaged_texts_are_read_as_item_10_says() {
    let mut trials = Trials::new(read_plan);
    for number in 0..PLANS {
        let random = &mut Random::new(SEED, number as u64);
        let plan = generate::plan(random, number, SIZE);
        let text = write(&plan, random.pick(headers(plan.kind)));
        assert_eq!(reader::read(&text).as_ref(), Ok(&plan));
        trials.read_with_all_room(&text, &judged(&text));
        find_lines(&mut trials, &text);
        for (_, damage) in WAYS {
            let damaged = damage(random, &text);
            trials.read_with_all_room(&damaged, &judged(&damaged));
            find_lines(&mut trials, &damaged);
        }
    }
    for answer in [(0, 0), (2, 0), (11, 1), (11, 2), (11, 3)] {
        let count = trials.count(answer.0, answer.1);
        assert!(count > PLANS, "{answer:?}: {count} times");
    }
}

/// A header and as many lines over and over as a text has room for, with bytes left.
fn repeated(start: &str, lines: &str) -> Vec<u8> {
    let count = (LONGEST - start.len()) / lines.len();
    (start.to_string() + &lines.repeat(count)).into_bytes()
}

#[test]
fn the_largest_texts_are_read_and_longer_ones_refused() {
    let mut trials = Trials::new(read_plan);
    for (start, lines, most) in [
        ("plan\nouter\n", "at\t0\t0\n", [18_720, 1, 1]),
        ("plan\ttree\nnode\n", "at\t0\t0\n", [18_720, 1, 0]),
        ("plan\nouter\n", "hole\n", [0, 13_106, 1]),
        ("plan\n", "outer\n", [0, 10_921, 10_921]),
    ] {
        let text = repeated(start, lines);
        let plan = reader::read(&text).expect("a plan");
        assert_eq!(needed(&plan), most);
        trials.read_with_all_room(&text, &judged(&text));
        let mut longer = text.clone();
        longer.resize(LONGEST + 1, b'\n');
        trials.read_with_all_room(&longer, &judged(&longer));
        longer.truncate(LONGEST);
        trials.read_with_all_room(&longer, &judged(&longer));
    }
    assert!(trials.count(1, 0) > 0);
}

#[test]
fn lines_are_found_in_any_bytes() {
    let mut trials = Trials::new(read_plan);
    find_lines(&mut trials, b"");
    find_lines(&mut trials, b"\n");
    find_lines(&mut trials, b"\n\n\n");
    find_lines(&mut trials, b"plan");
    find_lines(&mut trials, b"plan\nouter");
    find_lines(&mut trials, &[b'x'; LONGEST + 1]);
    for number in 0..2_000 {
        let random = &mut Random::new(SEED, number);
        let length = random.below(60);
        let byte = |_| random.pick(b"\n\n\n\tab\r\0\xff");
        let text: Vec<u8> = (0..length).map(byte).collect();
        find_lines(&mut trials, &text);
    }
}

/// As the header says: behind a last line feed stands one more piece.
#[test]
fn behind_a_last_line_feed_stands_an_empty_line() {
    let span = |offset, length| Span { offset, length };
    assert_eq!(line(b"plan\n", 1), span(0, 4));
    assert_eq!(line(b"plan\n", 2), span(5, 0));
    assert_eq!(line(b"plan\n", 3), span(0, 0));
    assert_eq!(line(b"plan", 2), span(0, 0));
}

/// Document 01's N(n), each value computed once: a level has two of them.
fn stated(n: usize, known: &mut BTreeMap<usize, usize>) -> usize {
    if n <= 8 {
        return 1;
    }
    if let Some(&count) = known.get(&n) {
        return count;
    }
    let count = 1 + stated(n / 2, known) + stated(n - n / 2, known);
    known.insert(n, count);
    count
}

#[test]
fn the_number_of_nodes_is_the_stated_one() {
    for n in 0..5_000 {
        assert_eq!(node_count(n), prepared::node_count(n), "{n} corners");
    }
    for n in [65_535, 65_536, 65_537, 1_000_000, 1_048_575, 1_048_576] {
        assert_eq!(node_count(n), prepared::node_count(n), "{n} corners");
    }
    assert_eq!(node_count(1_048_576), 262_143);
    let random = &mut Random::new(SEED, 0);
    for bits in 0..64 {
        for n in [(1 << bits) - 1, 1 << bits, random.any() as usize >> bits] {
            assert_eq!(
                node_count(n),
                stated(n, &mut BTreeMap::new()),
                "{n} corners"
            );
        }
    }
    assert_eq!(
        node_count(usize::MAX),
        stated(usize::MAX, &mut BTreeMap::new())
    );
}
