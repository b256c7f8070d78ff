//! Exact point location for a server that keeps prepared plans.
//!
//! A [`Plan`] is an outline with or without holes, a list of them, or a tree of outlines. It comes from rings, from text or from Well-Known
//! Text, as which a list also goes back. [`Prepared`] is a plan with a hierarchy of boxes over its edges: it says whether a point lies
//! inside, outside or on the boundary, on the integer grid and on the half-grid, and lets single corners be moved and moves be undone.
//!
//! ```
//! use findspot::{Location, Plan, Point, Prepared};
//!
//! // A square with a square hole.
//! let plan = Plan::polygon([
//!     [(0, 0), (10, 0), (10, 10), (0, 10)],
//!     [(4, 4), (6, 4), (6, 6), (4, 6)],
//! ]);
//! let mut prepared = Prepared::with_undo(&plan, 100)?;
//! assert_eq!(prepared.locate(Point::new(1, 5)), Location::Inside);
//! assert_eq!(prepared.locate(Point::new(4, 5)), Location::OnBoundary);
//! assert_eq!(prepared.locate(Point::new(5, 5)), Location::Outside);
//!
//! // Corner 2 was measured wrongly: (10, 10) should be (20, 20).
//! prepared.move_corner(2, Point::new(20, 20))?;
//! assert_eq!(prepared.locate(Point::new(12, 12)), Location::Inside);
//! prepared.undo()?;
//! assert_eq!(prepared.locate(Point::new(12, 12)), Location::Outside);
//! # Ok::<(), findspot::Refusal>(())
//! ```
//!
//! # What is proved
//!
//! Every look-up, move and undo, the preparing itself and the reading and writing of text are calls of the static library `capi`, whose
//! functions are proved to meet their contracts: the replies are those of the winding and even-odd rules, a look-up through the boxes and
//! one ring by ring reply alike, a refused call changes nothing, and once all moves are undone the tables are as first prepared. This crate
//! keeps the tables that the library is lent, so nobody else writes them, and what the library answers to unsound tables never comes up.
//!
//! Outside the proof are this crate's own lines: the lists that become tables, the words of messages, and the module that calls the
//! library, the only one with `unsafe` code.
//!
//! # Threads and stack
//!
//! A [`Prepared`] plan is `Send` and `Sync`: the library keeps nothing between calls, and look-ups only read. A look-up, [`locate_text`]
//! and [`Prepared::first_not_outside`] take up to [`STACK_NEEDED`] bytes of stack. A Rust program's main thread and the threads that it
//! starts have enough unless they are asked for less; a thread whose stack is chosen by hand should have 1 MiB:
//!
//! ```
//! use findspot::{Location, Plan, Point, Prepared};
//! use std::thread;
//!
//! let plan = Plan::polygon([[(0, 0), (10, 0), (10, 10), (0, 10)]]);
//! let prepared = Prepared::new(&plan)?;
//! let place = thread::scope(|scope| {
//!     let look_up = || prepared.locate(Point::new(5, 5));
//!     let thread = thread::Builder::new().stack_size(1 << 20);
//!     let look_up = thread.spawn_scoped(scope, look_up).expect("a thread");
//!     look_up.join().expect("a reply")
//! });
//! assert_eq!(place, Location::Inside);
//! # Ok::<(), findspot::Refusal>(())
//! ```
//!
//! A stack that is too small ends the process at its guard page, as any overflow of a Rust stack does; memory is never overwritten.

#![deny(missing_docs)]
#![deny(unsafe_code)]
#![deny(unsafe_op_in_unsafe_fn)]

mod library;
mod location;
mod plan;
mod point;
mod prepared;
mod refusal;
mod text;
mod wkt;

pub use location::Location;
pub use plan::{Kind, Plan};
pub use point::{MAX_COORD, MAX_DOUBLED, Point};
pub use prepared::{Prepared, Rect};
pub use refusal::{Refusal, Table};
pub use text::{line, locate_text};

/// The most corners that a plan may have.
pub const MAX_CORNERS: usize = 1_048_576;
/// The most rings that a plan may have.
pub const MAX_RINGS: usize = 65_536;
/// The most polygons that a list may have.
pub const MAX_POLYGONS: usize = 65_536;
/// The most points that [`Prepared::first_not_outside`] takes.
pub const MAX_POINTS: usize = 65_536;
/// The most moves that can be kept for undoing.
pub const MAX_UNDO: usize = 65_536;
/// The most bytes that the text of a plan may have, Well-Known Text too.
pub const MAX_TEXT: usize = 65_536;

/// The bytes of stack that the library takes at most. What the calling program itself has on its stack comes on top.
pub const STACK_NEEDED: usize = 600 * 1024;

/// The examples of the crate's README.
#[cfg(doctest)]
#[doc = include_str!("../README.md")]
struct Readme;
