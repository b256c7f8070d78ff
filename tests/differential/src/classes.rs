//! What came up in a comparison, and how often.

use plans::plan::{Kind, Mode, Plan, Query};
use plans::rays::{Chooser, RAYS, Ray};
use std::collections::BTreeMap;
use std::fmt::{self, Display, Formatter};
use std::ops::AddAssign;

/// The names of the replies by their numbers.
const REPLIES: [&str; 3] = ["outside", "inside", "boundary"];

/// Counts by grid, kind, ray and reply, of points and plans in range.
#[derive(Clone, Default)]
pub struct Classes {
    counts: [[[[u64; 3]; 4]; 2]; 2],
}

impl Classes {
    /// Counts a reply.
    pub fn add(&mut self, kind: Kind, ray: Ray, query: &Query, reply: u8) {
        self.counts[query.mode as usize][kind as usize][ray as usize][usize::from(reply)] += 1;
    }

    /// How often the rarest class of plans of a kind came up.
    pub fn rarest(&self, kind: Kind) -> u64 {
        let of_kind = self.counts.iter().map(|kinds| &kinds[kind as usize]);
        let counts = of_kind.flatten().flatten();
        counts.copied().min().unwrap_or_default()
    }
}

impl AddAssign<&Classes> for Classes {
    fn add_assign(&mut self, other: &Classes) {
        let ours = self.counts.as_flattened_mut().as_flattened_mut();
        let theirs = other.counts.as_flattened().as_flattened();
        let (ours, theirs) = (ours.as_flattened_mut(), theirs.as_flattened());
        for (count, more) in ours.iter_mut().zip(theirs) {
            *count += more;
        }
    }
}

impl Display for Classes {
    fn fmt(&self, f: &mut Formatter<'_>) -> fmt::Result {
        for (grid, mode) in [("grid", Mode::Grid), ("half-grid", Mode::Doubled)] {
            for kind in [Kind::List, Kind::Tree] {
                for ray in RAYS {
                    let counts = self.counts[mode as usize][kind as usize][ray as usize];
                    write!(f, "{grid}, {kind:?}, {ray:?}:")?;
                    for (count, reply) in counts.iter().zip(REPLIES) {
                        write!(f, " {count} {reply}")?;
                    }
                    writeln!(f)?;
                }
            }
        }
        Ok(())
    }
}

/// Everything that is counted.
#[derive(Clone, Default)]
pub struct Tally {
    pub classes: Classes,
    /// Plans, or sessions of corrections.
    pub plans: u64,
    /// Replies through the boxes.
    pub replies: u64,
    /// Replies ring by ring.
    pub by_rings: u64,
    /// Lists of points whose first that is not outside was asked.
    pub lists: u64,
    /// Well-Known Texts that were read.
    pub texts: u64,
    /// Answers to corrections, by refusal number, 0 where accepted.
    pub corrections: BTreeMap<u64, u64>,
    /// How often all moves were undone and the tables were those first prepared.
    pub undone: u64,
    pub out_of_range: u64,
    pub above_512_edges: u64,
    pub above_128_rings: u64,
}

impl Tally {
    /// Counts a plan.
    pub fn add_plan(&mut self, plan: &Plan) {
        self.plans += 1;
        self.out_of_range += u64::from(!plan.in_range());
        self.above_512_edges += u64::from(plan.coordinates.len() / 2 > 512);
        self.above_128_rings += u64::from(plan.ring_lengths.len() > 128);
    }

    /// Counts replies to points of a plan, those in range by their rays.
    pub fn add_replies(&mut self, plan: &Plan, queries: &[Query], replies: &[u8]) {
        self.replies += replies.len() as u64;
        if !plan.in_range() {
            return;
        }
        let chooser = Chooser::of(plan);
        for (query, &reply) in queries.iter().zip(replies) {
            if query.in_range() {
                let ray = chooser.ray(query);
                self.classes.add(plan.kind, ray, query, reply);
            }
        }
    }

    /// Counts the answer to a correction, after which so many moves can be undone.
    pub fn add_correction(&mut self, answer: Result<(), u64>, depth: usize) {
        self.undone += u64::from(answer.is_ok() && depth == 0);
        let number = answer.err().unwrap_or_default();
        *self.corrections.entry(number).or_default() += 1;
    }
}

impl AddAssign<&Tally> for Tally {
    fn add_assign(&mut self, other: &Tally) {
        self.classes += &other.classes;
        self.plans += other.plans;
        self.replies += other.replies;
        self.by_rings += other.by_rings;
        self.lists += other.lists;
        self.texts += other.texts;
        for (&number, &count) in &other.corrections {
            *self.corrections.entry(number).or_default() += count;
        }
        self.undone += other.undone;
        self.out_of_range += other.out_of_range;
        self.above_512_edges += other.above_512_edges;
        self.above_128_rings += other.above_128_rings;
    }
}

impl Display for Tally {
    fn fmt(&self, f: &mut Formatter<'_>) -> fmt::Result {
        write!(
            f,
            "{} plans, {} replies, {} ring by ring, {} lists",
            self.plans, self.replies, self.by_rings, self.lists
        )?;
        if self.texts > 0 {
            write!(f, ", {} texts", self.texts)?;
        }
        if !self.corrections.is_empty() {
            let total: u64 = self.corrections.values().sum();
            write!(f, ", {total} corrections")?;
        }
        Ok(())
    }
}
