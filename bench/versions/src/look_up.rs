//! The look-ups, compared and timed.

use crate::compared::{Compared, longer, rounds, same};
use crate::engine::{Engine, Version};
use crate::exports::Exports;
use crate::prepared::Prepared;
use crate::subject::Subject;
use shapes::Corner;
use std::hint::black_box;
use timing::clock::timed;
use timing::in_turn::Effort;

/// A kind of look-up, and how an engine is asked.
pub struct LookUp {
    pub name: &'static str,
    /// Whether it takes twice the point.
    doubled: bool,
    ask: fn(&Prepared, &Exports, Corner) -> i64,
}

/// All kinds, in the order of the tables.
pub const LOOK_UPS: [LookUp; 4] = [LOCATE, LOCATE_DOUBLED, BY_RINGS, DOUBLED_BY_RINGS];

const LOCATE: LookUp = LookUp {
    name: "`locate`",
    doubled: false,
    ask: |prepared, exports, point| prepared.look_up(exports.findspot_locate, point),
};

const LOCATE_DOUBLED: LookUp = LookUp {
    name: "`locate_doubled`",
    doubled: true,
    ask: |prepared, exports, point| prepared.look_up(exports.findspot_locate_doubled, point),
};

/// On the grid, through every ring.
pub const BY_RINGS: LookUp = LookUp {
    name: "Ring by ring",
    doubled: false,
    ask: |prepared, exports, point| {
        prepared.look_up_by_rings(exports.findspot_locate_by_rings, point)
    },
};

/// On the half-grid, through every ring.
pub const DOUBLED_BY_RINGS: LookUp = LookUp {
    name: "Ring by ring, doubled",
    doubled: true,
    ask: |prepared, exports, point| {
        prepared.look_up_by_rings(exports.findspot_locate_doubled_by_rings, point)
    },
};

/// The fewest points of a shape that a figure rests on.
const FEWEST: usize = 8;

/// Points that are asked of a plan by one kind of look-up.
pub struct Asked<'a> {
    subject: &'a Subject,
    look_up: &'a LookUp,
    points: Vec<Corner>,
}

impl<'a> Asked<'a> {
    /// These points. On the half-grid they lie one half to the right.
    pub fn new(subject: &'a Subject, look_up: &'a LookUp, points: &[Corner]) -> Asked<'a> {
        let taken = |&(x, y): &Corner| match look_up.doubled {
            true => (2 * x + 1, 2 * y),
            false => (x, y),
        };
        Asked {
            subject,
            look_up,
            points: points.iter().map(taken).collect(),
        }
    }

    /// As many of the points as either version replies to in so many nanoseconds, going by the first few.
    pub fn within(mut self, lasting: f64) -> Asked<'a> {
        let few = Asked {
            points: self.points[..FEWEST].to_vec(),
            ..self
        };
        let fitting = lasting / longer(|engine| few.time(1, engine));
        self.points.truncate((fitting as usize).max(FEWEST));
        self
    }

    /// An error where the replies of both versions differ.
    pub fn agree(&self) -> Result<(), String> {
        for &point in &self.points {
            let reply = |version: Version| {
                let prepared = self.subject.prepared(version);
                (self.look_up.ask)(prepared, version.first().exports(), point)
            };
            let what = || format!("{} of {point:?}", self.look_up.name);
            same(Version::BOTH.map(reply), what)?;
        }
        Ok(())
    }

    /// How often the points are asked in one repetition.
    pub fn passes(&self, effort: Effort) -> usize {
        let pass = longer(|engine| self.time(1, engine)) * self.points.len() as f64;
        rounds(effort, pass)
    }

    /// Nanoseconds of a look-up, the mean over all points, which are asked so many times.
    pub fn time(&self, passes: usize, engine: Engine) -> f64 {
        let prepared = self.subject.in_place(engine.version);
        let all = || {
            for _ in 0..passes {
                black_box(self.sum_of_replies(&prepared, engine.exports()));
            }
        };
        timed(all).0 / (passes * self.points.len()) as f64
    }

    /// It is never made part of its caller, so that the same machine code asks all engines.
    #[inline(never)]
    fn sum_of_replies(&self, prepared: &Prepared, exports: &Exports) -> i64 {
        let reply = |&point: &Corner| (self.look_up.ask)(prepared, exports, point);
        self.points.iter().map(reply).sum()
    }

    /// Both versions, once their replies are the same.
    pub fn compare(&self, effort: Effort) -> Result<Compared, String> {
        self.agree()?;
        let passes = self.passes(effort);
        Ok(Compared::in_turn(effort, |engine| {
            self.time(passes, engine)
        }))
    }
}
