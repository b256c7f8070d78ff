//! Trials of writing Well-Known Text: in guarded memory, against what is due.

use super::{Writing, due_writing, write_wkt};
use crate::guard::{Guarded, Side};
use crate::lent::{GuardedPlan, assert_starts_with};
use crate::reader::LONGEST;
use plans::plan::Plan;

/// What the output holds before it is written, which is no byte of a text.
const UNWRITTEN: u8 = 0xa5;

/// So many numbers are shown of a plan that is answered otherwise.
const SHOWN: usize = 40;

/// Guarded memory for a plan and its text.
pub struct Writings {
    /// Whether the plan, and an output that is to stay as it is, are kept from being written. It takes long; without it they are compared.
    pub forbid: bool,
    plan: GuardedPlan,
    output: Guarded<u8>,
}

impl Default for Writings {
    fn default() -> Writings {
        Writings {
            forbid: true,
            plan: GuardedPlan::default(),
            output: Guarded::new(LONGEST + 8),
        }
    }
}

impl Writings {
    /// Writes a plan, as one of this kind, to an output of this length. A refused one may not write, and a written one no byte behind its text.
    /// Gives the text, or the refusal and its table.
    pub fn write(
        &mut self,
        kind: u64,
        plan: &Plan,
        room: usize,
        side: Side,
    ) -> Result<Vec<u8>, (u64, u64)> {
        self.plan.hold(plan, side);
        self.output.hold(&vec![UNWRITTEN; room], side);
        let due = due_writing(kind, plan, room);
        let given = self.write_held(kind, due.is_err());
        let text = due.as_deref().unwrap_or_default();
        let (refusal, table) = due.as_ref().err().copied().unwrap_or_default();
        let answer = Writing {
            refusal,
            table,
            length: text.len() as u64,
        };
        let shown = &plan.coordinates[..plan.coordinates.len().min(SHOWN)];
        assert_eq!(given, answer, "kind {kind}, {room} bytes, {shown:?} ..");
        assert_starts_with(self.output.as_slice(), text, UNWRITTEN);
        assert!(self.plan.holds(plan), "the plan handed in was written");
        due
    }

    /// Writes the plan that is held, which is to be refused or not.
    fn write_held(&mut self, kind: u64, refused: bool) -> Writing {
        if self.forbid {
            self.plan.forbid_writing(true);
            self.output.forbid_writing(refused);
        }
        let handed = self.plan.handed(kind);
        let given = write_wkt(handed, self.output.as_mut_slice());
        if self.forbid {
            self.plan.forbid_writing(false);
            self.output.forbid_writing(false);
        }
        given
    }
}
