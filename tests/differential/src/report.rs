//! How a case that differs is written.

use capi::writer;
use plans::model::Call;
use plans::plan::{Mode, Query};
use plans::sessions::Session;

/// A session as the text of its plan and its points, which the program `findspot` reads, and its corrections after it.
pub fn written(session: &Session) -> String {
    let plan = &session.case.plan;
    let header = writer::headers(plan.kind).last().copied();
    let plan = writer::write(plan, header.unwrap_or_default());
    let mut text = String::from_utf8_lossy(&plan).into_owned();
    for Query { mode, x, y } in &session.case.queries {
        let word = match mode {
            Mode::Grid => "coin",
            Mode::Doubled => "half",
        };
        text.push_str(&format!("{word}\t{x}\t{y}\n"));
    }
    if !session.calls.is_empty() {
        text.push_str(&format!("corrections, {} undo rows\n", session.undo_rows));
    }
    for call in &session.calls {
        text.push_str(&match call {
            Call::Move { corner, to: (x, y) } => format!("corner {corner} to {x} {y}\n"),
            Call::Undo => "undo\n".to_string(),
        });
    }
    text
}
