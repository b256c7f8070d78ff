//! What the benchmarks share: a [`clock`], two ways to do a thing timed [`in_turn`], and lines of [`markdown`] tables.

pub mod clock;
pub mod in_turn;
pub mod markdown;
