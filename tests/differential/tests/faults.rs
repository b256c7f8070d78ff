//! The comparison sees a fault that changes an answer or a table, and the rest change none.

use differential::faults::{FAULTS, Fault, first_difference};
use differential::runs::Mode;
use plans::generate::SEED;

/// The part of the comparison that is due to see a fault first. Neither the ray that is taken nor how halves are rounded shows in an
/// answer: contracts hold these (docs/FAULTS.md).
fn seen_by(fault: Fault) -> Option<Mode> {
    match fault {
        Fault::RimBoxesSkipped | Fault::ClosingEdgeLost => Some(Mode::Small),
        Fault::ParityOnBothGrids | Fault::HolesAsASet | Fault::TurnInFloatingPoint => {
            Some(Mode::Random)
        }
        Fault::BoxesNeverNarrowed | Fault::UndoOneEarly => Some(Mode::Moves),
        Fault::LastPositionKept | Fault::RingsTurned => Some(Mode::Wkt),
        Fault::TieToTheLaterRay | Fault::HalvesTruncated => None,
    }
}

#[test]
fn each_fault_that_changes_an_answer_is_seen() {
    for fault in FAULTS {
        let seen = first_difference(Some(fault), SEED).map(|(mode, _)| mode);
        assert_eq!(seen, seen_by(fault), "{fault:?}");
    }
}

#[test]
fn the_double_without_a_fault_answers_as_the_original_does() {
    if let Some((_, failure)) = first_difference(None, SEED) {
        panic!("{}: {}", failure.name, failure.difference);
    }
}
