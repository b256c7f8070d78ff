//! A plan as a server keeps it: read from text, prepared once, asked on both grids and from several threads, corrected and undone.
//!
//!     cargo run --release --example session

use findspot::{Location, Plan, Point, Prepared, Refusal};
use std::thread;

/// A square with a square hole.
const TEXT: &[u8] = b"plan\tlist\n\
    outer\nat\t0\t0\nat\t10\t0\nat\t10\t10\nat\t0\t10\n\
    hole\nat\t4\t4\nat\t6\t4\nat\t6\t6\nat\t4\t6\n";

fn main() -> Result<(), Refusal> {
    let plan = Plan::from_text(TEXT)?;
    let mut prepared = Prepared::with_undo(&plan, 16)?;

    let points = [(5, 5), (4, 5), (1, 5), (12, 12)].map(Point::from);
    show("as prepared", &prepared, &points);
    let half = prepared.locate_doubled(Point::new(7, 9));
    println!("(3.5, 4.5) {half}");
    let first = prepared.first_not_outside(&points)?;
    println!("the first that is not outside: {first:?}");

    prepared.move_corner(2, Point::new(20, 20))?;
    show("corner 2 moved to (20, 20)", &prepared, &points);
    prepared.undo()?;
    show("and back", &prepared, &points);
    assert!(prepared == Prepared::new(&plan)?);

    if let Err(refusal) = prepared.move_corner(8, Point::new(0, 0)) {
        println!("{refusal}");
    }
    Ok(())
}

/// Asks each point on a thread of its own.
fn show(title: &str, prepared: &Prepared, points: &[Point]) {
    println!("{title}:");
    let places: Vec<Location> = thread::scope(|scope| {
        let ask = |&point| scope.spawn(move || prepared.locate(point));
        let threads: Vec<_> = points.iter().map(ask).collect();
        let reply = |thread: thread::ScopedJoinHandle<Location>| thread.join().expect("a reply");
        threads.into_iter().map(reply).collect()
    });
    for (point, place) in points.iter().zip(places) {
        println!("  ({}, {}) {place}", point.x, point.y);
    }
}
