//! The engine gives the original's stored replies.

use inside::stored::{Counts, compare};

#[test]
fn stored_replies_are_given() {
    let counts = compare(include_str!("../../replies/stored.txt"));
    let due = Counts {
        plans: 3_011,
        replies: 20_855,
    };
    assert_eq!(counts, due);
}

#[test]
#[should_panic(expected = "the closing line is missing")]
fn a_text_that_breaks_off_is_seen() {
    compare("0 0 1 0 1 1 1 0 0 0 0\n");
}

#[test]
#[should_panic(expected = "line 1: Query")]
fn another_reply_is_seen() {
    compare("0 0 1 0 1 1 1 0 0 0 1\n-1\n");
}
