//! Writes plans as text.

use plans::plan::{Kind, Plan};
use std::iter;

/// The first lines that a plan of a kind may have.
pub fn headers(kind: Kind) -> &'static [&'static str] {
    match kind {
        Kind::List => &["plan", "plan\tlist"],
        Kind::Tree => &["plan\ttree"],
    }
}

/// The text of a plan, under one of its kind's headers.
pub fn write(plan: &Plan, header: &str) -> Vec<u8> {
    let mut lines = vec![header.to_string()];
    for (word, ring) in iter::zip(words(plan), plan.rings()) {
        lines.push(word.to_string());
        lines.extend(ring.iter().map(|(x, y)| format!("at\t{x}\t{y}")));
    }
    let ended = |line| format!("{line}\n").into_bytes();
    lines.iter().flat_map(ended).collect()
}

/// The word that opens each ring.
fn words(plan: &Plan) -> Vec<&'static str> {
    match plan.kind {
        Kind::List => plan.ring_counts.iter().flat_map(polygon_words).collect(),
        Kind::Tree => vec!["node"; plan.ring_lengths.len()],
    }
}

fn polygon_words(&ring_count: &usize) -> impl Iterator<Item = &'static str> {
    iter::once("outer")
        .chain(iter::repeat("hole"))
        .take(ring_count)
}
