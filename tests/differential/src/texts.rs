//! Compares plans that are read from Well-Known Text: the tables read with the plan that was spelled, and the replies over them with those of
//! the original, which is fed the same tables (document 02, R-1).

use crate::classes::Tally;
use crate::engine::Engine;
use crate::lookups;
use capi::wkt::writer::{spellings, writable};
use plans::generate::{Case, SEED};
use plans::random::Random;

/// Reads a plan, as far as it can be written, in several spellings, and compares, or says where something differs.
pub fn compare(engine: &dyn Engine, case: &Case, tally: &mut Tally) -> Result<(), String> {
    let plan = writable(&case.plan);
    let mut random = Random::new(SEED, plan.coordinates.len() as u64);
    let mut last = plan.clone();
    for text in spellings(&mut random, &plan) {
        let shown = text.escape_ascii();
        let read = engine.read_wkt(&text);
        last = read.map_err(|refusal| format!("{shown} is refused: {refusal:?}"))?;
        if last != plan {
            return Err(format!("{shown} is read as {last:?}"));
        }
        tally.texts += 1;
    }
    let queries = case.queries.clone();
    lookups::compare(
        engine,
        &Case {
            plan: last,
            queries,
        },
        tally,
    )
}
