//! What lies inside the engine, through the static library `testing`, and what its answers are compared with.
//!
//! [`calls`] calls the library. [`walk`] is document 01's walk, written from items 5 and 9 alone, [`shapes`] makes the plans that are walked,
//! built and looked up in, [`stored`] reads stored replies of the original, and [`whole`] has whole numbers of any size.

pub mod calls;
pub mod shapes;
pub mod stored;
pub mod walk;
pub mod whole;
