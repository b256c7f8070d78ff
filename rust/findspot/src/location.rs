//! The three places.

use std::fmt;

/// Where a point lies.
#[derive(Clone, Copy, Debug, PartialEq, Eq, Hash)]
pub enum Location {
    /// Outside, or out of range, or of a plan with a corner out of range.
    Outside,
    /// Inside.
    Inside,
    /// On an edge or a corner.
    OnBoundary,
}

impl Location {
    /// The place's number: 0 outside, 1 inside, 2 on the boundary.
    pub const fn number(self) -> u8 {
        match self {
            Location::Outside => 0,
            Location::Inside => 1,
            Location::OnBoundary => 2,
        }
    }
}

/// The words of the program `findspot`: `outside`, `inside`, `boundary`.
impl fmt::Display for Location {
    fn fmt(&self, formatter: &mut fmt::Formatter<'_>) -> fmt::Result {
        formatter.pad(match self {
            Location::Outside => "outside",
            Location::Inside => "inside",
            Location::OnBoundary => "boundary",
        })
    }
}
