//! Stored replies of the original (tests/differential/STORED.md): read, and held to what the engine answers.

use crate::calls;
use capi::prepared::Prepared;
use plans::plan::{Kind, Mode, Plan, Query};
use std::str::SplitAsciiWhitespace;

/// Plans, and replies compared.
#[derive(Clone, Copy, Debug, Default, PartialEq, Eq)]
pub struct Counts {
    pub plans: usize,
    pub replies: usize,
}

struct Fields<'a>(SplitAsciiWhitespace<'a>);

impl Fields<'_> {
    fn number(&mut self) -> i64 {
        let field = self.0.next().expect("a field is there");
        field.parse().expect("it is a number")
    }

    fn count(&mut self) -> usize {
        usize::try_from(self.number()).expect("it is a count")
    }

    fn counts(&mut self) -> Vec<usize> {
        (0..self.count()).map(|_| self.count()).collect()
    }

    fn coordinates(&mut self, steps: bool) -> Vec<i64> {
        let mut numbers: Vec<i64> = (0..self.count()).map(|_| self.number()).collect();
        if steps {
            for place in 2..numbers.len() {
                numbers[place] += numbers[place - 2];
            }
        }
        numbers
    }

    fn plan(&mut self, form: i64) -> Plan {
        Plan {
            kind: if form % 2 == 0 {
                Kind::List
            } else {
                Kind::Tree
            },
            coordinates: self.coordinates(form >= 2),
            ring_lengths: self.counts(),
            ring_counts: self.counts(),
        }
    }

    fn query(&mut self) -> Query {
        let mode = match self.number() {
            0 => Mode::Grid,
            1 => Mode::Doubled,
            other => panic!("no mode: {other}"),
        };
        let (x, y) = (self.number(), self.number());
        Query { mode, x, y }
    }
}

/// Asks each stored point ring by ring of the plan as it stands, and through the boxes and ring by ring of the prepared one. Panics at a
/// reply that is another than the stored one, and at a text that breaks the format.
pub fn compare(text: &str) -> Counts {
    let mut counts = Counts::default();
    let mut lines = text.lines();
    for (number, line) in lines.by_ref().enumerate() {
        let mut fields = Fields(line.split_ascii_whitespace());
        let form = fields.number();
        if form == -1 {
            assert_eq!(fields.0.next(), None, "the closing line is -1 alone");
            assert_eq!(lines.next(), None, "nothing follows it");
            return counts;
        }
        assert!((0..4).contains(&form), "line {}: form {form}", number + 1);
        let plan = fields.plan(form);
        let prepared = Prepared::new(&plan);
        for _ in 0..fields.count() {
            let query = fields.query();
            let reply = fields.number();
            let line = number + 1;
            assert_eq!(
                calls::locate_in_plan(&plan, query),
                reply,
                "line {line}: {query:?}"
            );
            assert_eq!(prepared.locate(query), reply, "line {line}: {query:?}");
            assert_eq!(
                prepared.locate_by_rings(query),
                reply,
                "line {line}: {query:?}"
            );
            counts.replies += 1;
        }
        assert_eq!(fields.0.next(), None, "line {} is over", number + 1);
        counts.plans += 1;
    }
    panic!("the closing line is missing");
}
