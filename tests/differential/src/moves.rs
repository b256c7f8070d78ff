//! Compares corrections: each answer with document 01's correction book, the tables after it with item 9 and with what a correction
//! may change, and the replies with those of the original prepared anew.

use crate::classes::Tally;
use crate::engine::Engine;
use crate::lookups;
use capi::corrections::Correction;
use capi::prepared::Prepared;
use plans::generate::Case;
use plans::model::Model;
use plans::sessions::Session;

/// Makes all corrections of a session and compares after each, or says where something differs.
pub fn compare(engine: &dyn Engine, session: &Session, tally: &mut Tally) -> Result<(), String> {
    let Session {
        case: Case { plan, queries },
        undo_rows,
        calls,
    } = session;
    let first = Prepared::with_undo(plan, *undo_rows).map_err(|answer| format!("{answer:?}"))?;
    let mut model = Model::new(plan.clone(), *undo_rows);
    let mut prepared = first.clone();
    tally.add_plan(plan);
    for (number, &call) in calls.iter().enumerate() {
        let correction = Correction {
            call,
            first: &first,
            before: prepared.clone(),
        };
        let answer = engine.correct(&mut prepared, call);
        let due = model.call(call);
        correction
            .check(answer, due, &prepared, &model)
            .and_then(|()| {
                lookups::compare_prepared(engine, &prepared, model.plan(), queries, tally)
            })
            .map_err(|difference| format!("correction {number}, {call:?}: {difference}"))?;
        tally.add_correction(due, model.depth());
    }
    Ok(())
}
