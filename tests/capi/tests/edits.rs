//! All texts that are one byte away from an example.

use capi::damage::one_byte_away;
use capi::examples::{LIST, POINTS, TREE};
use capi::expected::checked_answers;
use capi::reader::read;

#[test]
fn a_byte_changed_put_in_or_left_out() {
    for example in [LIST, TREE] {
        let mut accepted = 0;
        for text in one_byte_away(example) {
            checked_answers(&text, &POINTS);
            accepted += usize::from(read(&text).is_ok());
        }
        assert!(accepted >= 500, "{accepted} accepted");
    }
}
