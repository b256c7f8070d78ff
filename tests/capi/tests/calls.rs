//! What a call leaves alone: the bytes around its text, the text itself and calls in other threads.

use capi::entry::locate_text;
use capi::examples::{LIST, POINTS, TREE};
use capi::expected::checked_answers;
use capi::reader::LONGEST;
use std::hint::black_box;
use std::thread;

/// Whatever follows a part of the worked example would change its answer.
#[test]
fn the_rest_of_a_buffer_is_not_read() {
    let whole = LIST.len();
    let before_hole = LIST.windows(4).position(|part| part == b"hole");
    let before_hole = before_hole.expect("the example has a hole");
    let in_hole = |end| locate_text(&LIST[..end], (5, 5));
    assert_eq!(in_hole(whole), 0);
    assert_eq!(in_hole(whole - 1), -2, "the line end is beyond");
    assert_eq!(in_hole(whole - 2), -2, "the last number is beyond");
    assert_eq!(in_hole(before_hole), 1, "the hole is beyond");
    assert_eq!(in_hole(0), -2, "all is beyond");
}

#[test]
fn every_part_of_a_text_is_answered_as_if_alone() {
    for example in [LIST, TREE] {
        for end in 0..=example.len() {
            for start in 0..=end {
                checked_answers(&example[start..end], &POINTS);
            }
        }
    }
}

#[test]
fn a_longest_text_may_lie_in_a_longer_buffer() {
    let header = b"plan\tlist\n";
    let buffer = [header, b"outer\n".repeat(LONGEST).as_slice()].concat();
    assert_eq!(locate_text(&buffer[..LONGEST], (0, 0)), 0);
    assert_eq!(locate_text(&buffer[..LONGEST + 1], (0, 0)), -1);
}

#[test]
fn the_buffer_is_not_changed() {
    for example in [LIST, TREE] {
        let mut buffer = example.repeat(3);
        for start in 0..example.len() {
            let end = start + example.len();
            checked_answers(&buffer[start..end], &POINTS);
            // Whatever the call did to the buffer, the comparison has to look at it.
            assert_eq!(*black_box(&mut buffer), example.repeat(3));
        }
    }
}

#[test]
fn calls_in_other_threads_change_no_answer() {
    thread::scope(|scope| {
        for text in [LIST, TREE, LIST, TREE] {
            scope.spawn(|| {
                for _ in 0..1_000 {
                    checked_answers(text, &POINTS);
                }
            });
        }
    });
}
