//! Replies of the original Rust to location queries, beside those of the proved engine and of document 01's rules.
//!
//! [`oracle`] replies for the original. [`lookups`] compares the replies to a plan's points, [`moves`] those between corrections, [`texts`]
//! those over the tables that a Well-Known Text is read into, and [`runs`] goes through all plans. An [`engine`] is what is compared;
//! [`faults`] has faulty ones, on which the comparison is tried. [`classes`] counts what came up, and [`report`] writes a case that differs.
//! [`stored`] writes cases with the original's replies as text. [`samples`] writes inputs of `findspot` with the outputs that are due. The cases
//! and the rules are those of [`plans`].

pub mod classes;
pub mod engine;
pub mod faults;
pub mod lookups;
pub mod moves;
pub mod oracle;
pub mod report;
pub mod runs;
pub mod samples;
pub mod stored;
pub mod texts;
