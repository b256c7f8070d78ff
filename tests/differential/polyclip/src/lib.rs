//! The original's location code, compiled from its own source, which `build.rs` copies from its folder.
//!
//! What stands here is glue alone: stand-ins for the `libm` crate and for two modules that the
//! source names and that no location query enters.

// The source calls `libm::hypot`, `libm::ceil` and `libm::sqrt`: this crate stands in for `libm`.
extern crate self as libm;

include!(concat!(env!("OUT_DIR"), "/modules.rs"));

mod arrangement;
mod node;

pub use geom::{Point, PolyNode, PolyTree, Polygon, Ring};
pub use prepared::{Preparable, Prepared};
pub use query::{Geometry, Location};

/// Stands in for `libm::hypot`.
pub fn hypot(x: f64, y: f64) -> f64 {
    x.hypot(y)
}

/// Stands in for `libm::ceil`.
pub fn ceil(x: f64) -> f64 {
    x.ceil()
}

/// Stands in for `libm::sqrt`.
pub fn sqrt(x: f64) -> f64 {
    x.sqrt()
}
