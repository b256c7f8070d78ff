//! A plan prepared by both versions.

use crate::engine::Version;
use crate::prepared::Prepared;
use plans::plan::Plan;
use shapes::Shape;
use std::cell::{RefCell, RefMut};

/// A plan, and what each version prepares of it.
pub struct Subject {
    pub plan: Plan,
    before: Prepared,
    after: Prepared,
    /// The tables that are timed, of one version or the other: so both have them at the same place in memory.
    place: RefCell<Prepared>,
}

impl Subject {
    /// The shape as both versions prepare it, or how they differ.
    pub fn new(shape: &Shape) -> Result<Subject, String> {
        let plan = shape.plan();
        let [(before, of_before), (after, of_after)] = Version::BOTH.map(|version| {
            let exports = version.first().exports();
            let mut prepared = Prepared::room(exports, &plan);
            let preparing = prepared.prepare(exports, &plan);
            (prepared, preparing)
        });
        if of_before != of_after || of_before.refusal != 0 {
            return Err(format!(
                "preparing answers {of_before:?} before and {of_after:?} after"
            ));
        }
        let place = RefCell::new(before.clone());
        Ok(Subject {
            plan,
            before,
            after,
            place,
        })
    }

    /// What a version has prepared.
    pub fn prepared(&self, version: Version) -> &Prepared {
        match version {
            Version::Before => &self.before,
            Version::After => &self.after,
        }
    }

    /// The same at the place in memory that both share.
    pub fn in_place(&self, version: Version) -> RefMut<'_, Prepared> {
        let mut place = self.place.borrow_mut();
        place.copy(self.prepared(version));
        place
    }
}
