//! The largest texts of each sort, asked in a thread with little stack.

use capi::entry;
use capi::expected;
use capi::reader::{LONGEST, read};
use plans::plan::Point;
use std::thread::{self, Builder};

/// The stack of a small thread, in bytes.
const STACK: usize = 512 * 1024;

/// A square, with numbers of one digit.
const SQUARE: &str = "at\t0\t0\nat\t9\t0\nat\t9\t9\nat\t0\t9\n";

/// A smaller square inside it.
const HOLE: &str = "at\t4\t4\nat\t6\t4\nat\t6\t6\nat\t4\t6\n";

/// In the hole, on its edge, in the square, on its edge, beyond it.
const POINTS: [Point; 5] = [(5, 5), (4, 5), (1, 5), (0, 5), (10, 5)];

/// A text that is as long as it may be.
struct Largest {
    name: &'static str,
    text: String,
    corners: usize,
    rings: usize,
    polygons: usize,
    /// The answers to [`POINTS`].
    answers: [i64; 5],
}

const ALL_OUTSIDE: [i64; 5] = [0; 5];
const OF_SQUARE: [i64; 5] = [1, 1, 1, 2, 0];
const OF_SQUARE_WITH_HOLE: [i64; 5] = [0, 2, 1, 2, 0];

/// The start, then the middle as often as it fits in front of the end.
fn filled(start: &str, middle: &str, end: &str) -> String {
    let times = (LONGEST - start.len() - end.len()) / middle.len();
    [start, &middle.repeat(times), end].concat()
}

fn largest_texts() -> [Largest; 9] {
    [
        Largest {
            name: "most corners of a list",
            text: filled("plan\tlist\nouter\n", SQUARE, ""),
            corners: 9_360,
            rings: 1,
            polygons: 1,
            answers: OF_SQUARE,
        },
        Largest {
            name: "most corners of a tree",
            text: filled("plan\ttree\nnode\n", SQUARE, ""),
            corners: 9_360,
            rings: 1,
            polygons: 0,
            answers: OF_SQUARE,
        },
        Largest {
            name: "most rings of a list",
            text: filled("plan\nouter\n", "hole\n", ""),
            corners: 0,
            rings: 13_106,
            polygons: 1,
            answers: ALL_OUTSIDE,
        },
        Largest {
            name: "most rings of a tree",
            text: filled("plan\ttree\n", "node\n", ""),
            corners: 0,
            rings: 13_105,
            polygons: 0,
            answers: ALL_OUTSIDE,
        },
        Largest {
            name: "most polygons",
            text: filled("plan\tlist\n", "outer\n", ""),
            corners: 0,
            rings: 10_921,
            polygons: 10_921,
            answers: ALL_OUTSIDE,
        },
        Largest {
            name: "the last of many holes decides",
            text: filled(
                &format!("plan\nouter\n{SQUARE}"),
                "hole\n",
                &format!("hole\n{HOLE}"),
            ),
            corners: 8,
            rings: 13_094,
            polygons: 1,
            answers: OF_SQUARE_WITH_HOLE,
        },
        Largest {
            name: "the last of many polygons decides",
            text: filled("plan\n", "outer\n", &format!("outer\n{SQUARE}hole\n{HOLE}")),
            corners: 8,
            rings: 10_912,
            polygons: 10_911,
            answers: OF_SQUARE_WITH_HOLE,
        },
        Largest {
            name: "the last of many rings of a tree decides",
            text: filled("plan\ttree\n", "node\n", &format!("node\n{SQUARE}")),
            corners: 4,
            rings: 13_099,
            polygons: 0,
            answers: OF_SQUARE,
        },
        Largest {
            name: "1,984 rings of a tree hold the point, and one more in the hole",
            text: filled(
                &format!("plan\ttree\nnode\n{HOLE}"),
                &format!("node\n{SQUARE}"),
                "",
            ),
            corners: 7_940,
            rings: 1_985,
            polygons: 0,
            answers: [1, 2, 0, 2, 0],
        },
    ]
}

/// The library's answers to [`POINTS`], asked in a small thread.
fn answers_in_small_thread(text: &[u8]) -> Vec<i64> {
    let ask = || entry::answers(text, &POINTS);
    thread::scope(|scope| {
        let thread = Builder::new().stack_size(STACK).spawn_scoped(scope, ask);
        thread.expect("a thread starts").join()
    })
    .expect("the thread ends well")
}

#[test]
fn the_largest_texts_are_what_they_are_called() {
    for largest in largest_texts() {
        let name = largest.name;
        let plan = read(largest.text.as_bytes()).expect(name);
        assert_eq!(plan.corners().len(), largest.corners, "{name}");
        assert_eq!(plan.ring_lengths.len(), largest.rings, "{name}");
        assert_eq!(plan.ring_counts.len(), largest.polygons, "{name}");
    }
}

#[test]
fn the_largest_texts_are_answered() {
    for Largest {
        name,
        text,
        answers,
        ..
    } in largest_texts()
    {
        let text = text.as_bytes();
        assert_eq!(answers_in_small_thread(text), answers, "{name}");
        assert_eq!(expected::answers(text, &POINTS), answers, "{name}");
    }
}

/// A winding number whose low bits are all 0 is still not 0.
#[test]
fn a_square_gone_round_often_is_answered() {
    let text = format!("plan\nouter\n{}", SQUARE.repeat(2_048));
    let text = text.as_bytes();
    assert_eq!(answers_in_small_thread(text), OF_SQUARE);
    assert_eq!(expected::answers(text, &POINTS), OF_SQUARE);
}

#[test]
fn with_line_ends_up_to_one_byte_too_many_they_are_too_long() {
    for Largest { name, text, .. } in largest_texts() {
        let mut text = text.into_bytes();
        text.resize(LONGEST + 1, b'\n');
        assert_eq!(answers_in_small_thread(&text), [-1; 5], "{name}");
    }
}

#[test]
fn a_good_text_with_one_digit_too_many_is_too_long() {
    let longest = filled("plan\tlist\nouter\n", SQUARE, "");
    let longer = longest.replacen("at\t9\t9", "at\t99\t9", 1);
    assert_eq!(longer.len(), LONGEST + 1);
    assert_eq!(answers_in_small_thread(longer.as_bytes()), [-1; 5]);
}

#[test]
fn a_longest_text_of_line_ends_or_tabs_is_refused() {
    for byte in [b'\n', b'\t'] {
        let text = vec![byte; LONGEST];
        assert_eq!(answers_in_small_thread(&text), [-2; 5]);
    }
}
