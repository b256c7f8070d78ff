//! The two versions, and the copies of each that are linked.

use crate::exports::{AFTER, BEFORE, COPIES, Exports};

/// One of the two versions.
#[derive(Clone, Copy)]
pub enum Version {
    Before,
    After,
}

/// One copy of a version.
#[derive(Clone, Copy)]
pub struct Engine {
    pub version: Version,
    copy: usize,
}

impl Version {
    /// Both, in the order of the tables' columns.
    pub const BOTH: [Version; 2] = [Version::Before, Version::After];

    /// Its first copy.
    pub fn first(self) -> Engine {
        self.at(0)
    }

    /// The copy that is measured in a repetition. Their number is odd and the order of versions changes with each repetition, so that every copy is
    /// measured first as often as second.
    pub fn at(self, repetition: usize) -> Engine {
        Engine {
            version: self,
            copy: repetition % COPIES,
        }
    }
}

impl Engine {
    /// The exports of this copy.
    pub fn exports(self) -> &'static Exports {
        match self.version {
            Version::Before => &BEFORE[self.copy],
            Version::After => &AFTER[self.copy],
        }
    }
}
