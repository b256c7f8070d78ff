//! What is lent in guarded memory: a plan that is handed in, and a text with the tables that it is read into. Trials of an export that reads
//! a text, with room and without, against a reader written apart from it.

use crate::due::{MOST_CORNERS, MOST_RINGS};
use crate::exports::Handed;
use crate::guard::{self, Guarded, Side};
use crate::reader::LONGEST;
use crate::reading::{Judged, Reading, due, needed};
use plans::plan::Plan;
use std::collections::BTreeMap;
use std::fmt::Debug;

/// A plan that is handed in, which may be too large by a few entries.
pub struct GuardedPlan {
    coordinates: Guarded<i64>,
    lengths: Guarded<usize>,
    counts: Guarded<usize>,
}

impl Default for GuardedPlan {
    fn default() -> GuardedPlan {
        GuardedPlan {
            coordinates: Guarded::new(2 * MOST_CORNERS + 8),
            lengths: Guarded::new(MOST_RINGS + 8),
            counts: Guarded::new(MOST_RINGS + 8),
        }
    }
}

impl GuardedPlan {
    pub fn hold(&mut self, plan: &Plan, side: Side) {
        self.coordinates.hold(&plan.coordinates, side);
        self.lengths.hold(&plan.ring_lengths, side);
        self.counts.hold(&plan.ring_counts, side);
    }

    /// Whether the plan is as it was held.
    pub fn holds(&self, plan: &Plan) -> bool {
        self.coordinates.as_slice() == plan.coordinates
            && self.lengths.as_slice() == plan.ring_lengths
            && self.counts.as_slice() == plan.ring_counts
    }

    /// Keeps the plan from being written, or no longer.
    pub fn forbid_writing(&self, forbid: bool) {
        self.coordinates.forbid_writing(forbid);
        self.lengths.forbid_writing(forbid);
        self.counts.forbid_writing(forbid);
    }

    /// The plan as one of this kind.
    pub fn handed(&self, kind: u64) -> Handed<'_> {
        Handed {
            kind,
            coordinates: self.coordinates.as_slice(),
            lengths: self.lengths.as_slice(),
            counts: self.counts.as_slice(),
        }
    }
}

/// No thousand calls take so many seconds.
const SECONDS: u32 = 120;

/// What the tables hold before a text is read, which is no number of a text.
const UNREAD: usize = 77_777;

/// An export that reads a text into tables of corners, ring lengths and ring counts.
pub type Read = fn(&[u8], &mut [i64], &mut [usize], &mut [usize]) -> Reading;

/// Guarded memory for a text and its tables, and how often each refusal came up with its table.
pub struct Trials {
    /// Whether the text, and tables that are to stay as they are, are kept from being written. It takes long; without it they are compared.
    pub forbid: bool,
    read: Read,
    text: Guarded<u8>,
    corners: Guarded<i64>,
    lengths: Guarded<usize>,
    counts: Guarded<usize>,
    number: usize,
    answers: BTreeMap<(u64, u64), usize>,
}

impl Trials {
    pub fn new(read: Read) -> Trials {
        guard::watch(SECONDS);
        Trials {
            forbid: true,
            read,
            text: Guarded::new(LONGEST + 1),
            corners: Guarded::new(LONGEST),
            lengths: Guarded::new(LONGEST),
            counts: Guarded::new(LONGEST),
            number: 0,
            answers: BTreeMap::new(),
        }
    }

    /// Holds a text against one of its pages, the other one in each trial, and lets nobody write it, unless that is left out.
    pub fn hold(&mut self, text: &[u8]) -> Side {
        self.number += 1;
        guard::trying(self.number, SECONDS);
        let side = match self.number % 2 {
            0 => Side::Before,
            _ => Side::After,
        };
        self.text.forbid_writing(false);
        self.text.hold(text, side);
        self.text.forbid_writing(self.forbid);
        side
    }

    /// The text that is held.
    pub fn text(&self) -> &[u8] {
        self.text.as_slice()
    }

    /// How often a refusal came up, with its table where it is 11; 0 is none.
    pub fn count(&self, refusal: u64, table: u64) -> usize {
        let count = self.answers.get(&(refusal, table));
        count.copied().unwrap_or_default()
    }

    fn forbid_tables(&self, forbid: bool) {
        self.corners.forbid_writing(forbid);
        self.lengths.forbid_writing(forbid);
        self.counts.forbid_writing(forbid);
    }

    /// Reads a text, in which this is to be found, into tables of these lengths. A refused one may not write, and a read one no entry behind
    /// the plan.
    pub fn read(&mut self, text: &[u8], judged: &Judged, room: [usize; 3]) {
        let side = self.hold(text);
        let answer = due(judged, room);
        self.corners.hold(&vec![UNREAD as i64; room[0]], side);
        self.lengths.hold(&vec![UNREAD; room[1]], side);
        self.counts.hold(&vec![UNREAD; room[2]], side);
        self.forbid_tables(self.forbid && answer.refusal > 0);
        let given = (self.read)(
            self.text.as_slice(),
            self.corners.as_mut_slice(),
            self.lengths.as_mut_slice(),
            self.counts.as_mut_slice(),
        );
        self.forbid_tables(false);
        assert_eq!(given, answer, "{room:?}: {}", text.escape_ascii());
        assert!(self.text.as_slice() == text, "the text was written");
        let plan = judged.as_ref().ok().filter(|_| answer.refusal == 0);
        let plan = plan.map(|plan| (&*plan.coordinates, &*plan.ring_lengths, &*plan.ring_counts));
        let (corners, lengths, counts) = plan.unwrap_or_default();
        assert_starts_with(self.corners.as_slice(), corners, UNREAD as i64);
        assert_starts_with(self.lengths.as_slice(), lengths, UNREAD);
        assert_starts_with(self.counts.as_slice(), counts, UNREAD);
        let table = if answer.refusal == 11 {
            answer.detail
        } else {
            0
        };
        *self.answers.entry((answer.refusal, table)).or_default() += 1;
    }

    /// The same into tables that are just long enough, longer, empty, and too short by one in each place.
    pub fn read_with_all_room(&mut self, text: &[u8], judged: &Judged) {
        let enough = judged.as_ref().map_or([0; 3], needed);
        self.read(text, judged, enough);
        self.read(text, judged, enough.map(|length| length + 3));
        self.read(text, judged, [0; 3]);
        for table in 0..3 {
            let mut room = enough;
            if room[table] > 0 {
                room[table] -= 1;
                self.read(text, judged, room);
                // and every table behind it
                room[table + 1..].fill(0);
                self.read(text, judged, room);
            }
        }
    }
}

/// That a table starts with these entries, and is filled with another one behind them.
pub fn assert_starts_with<T: Copy + PartialEq + Debug>(table: &[T], start: &[T], rest: T) {
    let (written, left) = table.split_at(start.len());
    assert_eq!(written, start);
    assert!(left.iter().all(|&entry| entry == rest), "{left:?}");
}
