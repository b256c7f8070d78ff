//! Plans to ask about, and the replies that document 01's rules give: 0 outside, 1 inside, 2 boundary.
//!
//! [`plan`] holds what is asked and of what, [`reference`](mod@reference) replies to it ring by ring,
//! [`named`] gives document 01's own cases, [`small`] every plan on a small grid, [`generate`] plans from
//! a seed and a number, [`largest`] those at the ceilings, and [`points`] the points to ask of a plan.
//! [`rays`] says which ray a look-up through the boxes takes. [`sessions`] adds corrections, [`model`]
//! answers them, and [`shrink`] makes a case that fails smaller.

pub mod generate;
pub mod largest;
pub mod model;
pub mod named;
pub mod plan;
pub mod points;
pub mod random;
pub mod rays;
pub mod reference;
pub mod sessions;
pub mod shrink;
pub mod small;

mod placement;
mod rings;
