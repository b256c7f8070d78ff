//! Calls on a thread with little more stack than `STACK_NEEDED`: one look-up meets 65,536 rings, which takes the most.

use findspot::{Location, MAX_RINGS, Plan, Point, Prepared, STACK_NEEDED, locate_text};
use std::thread;

/// For the test's own frames.
const OWN: usize = 64 * 1024;

/// The calls that take the most stack, asserted to reply rightly.
fn ask(nested: &Prepared) {
    let centre = Point::new(0, 0);
    assert_eq!(nested.locate(centre), Location::Outside);
    assert_eq!(nested.locate(Point::new(1, 0)), Location::OnBoundary);
    assert_eq!(nested.locate_doubled(centre), Location::Outside);
    assert_eq!(nested.locate_by_rings(centre), Location::Outside);
    assert_eq!(
        nested.first_not_outside(&[centre, Point::new(2, 2)]),
        Ok(Some(1))
    );
    let text = b"plan\nouter\nat\t0\t0\nat\t8\t0\nat\t0\t8\n";
    assert_eq!(locate_text(text, Point::new(1, 1)), Ok(Location::Inside));
}

#[test]
fn the_stated_stack_is_enough() {
    let square = |size: i64| [(-size, -size), (size, -size), (size, size), (-size, size)];
    let sizes = 1..=MAX_RINGS as i64;
    let nested = Prepared::new(&Plan::tree(sizes.map(square))).expect("an accepted plan");
    let thread = thread::Builder::new().stack_size(STACK_NEEDED + OWN);
    let replies = thread.spawn(move || ask(&nested)).expect("a thread");
    replies.join().expect("the replies that are due");
}
