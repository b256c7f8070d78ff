//! The C entry of item 11, and what its answers are compared with.
//!
//! [`entry`] calls the library. [`expected`] gives the answers that are due, by a [`reader`] of plan
//! text written from item 10 alone and by the rules of [`plans`]. [`writer`] makes texts of plans,
//! [`damage`] breaks them, and [`examples`] holds two of them. [`exports`] calls the library on tables that
//! it is lent, [`prepared`] keeps such tables, and [`soundness`] holds them to items 5 and 9. [`reading`] calls it to read a text into tables.
//! [`wkt`] reads and writes Well-Known Text, with a reader and a writer of its own, and [`lent`] tries what reads a text into tables.
//! [`corrections`] says what a correction may do to them. [`damaged`] hands damaged input to every call, in
//! memory that [`guard`] keeps, and [`due`] says what each is to answer. [`stored`] reads tables of an earlier
//! delivery.

pub mod corrections;
pub mod damage;
pub mod damaged;
pub mod due;
pub mod entry;
pub mod examples;
pub mod expected;
pub mod exports;
pub mod guard;
pub mod lent;
pub mod prepared;
pub mod reader;
pub mod reading;
pub mod soundness;
pub mod stored;
pub mod wkt;
pub mod writer;
