//! Makes a session that fails smaller, for as long as it still fails: without rings, corners, points and corrections that it does not
//! need, and with smaller coordinates.

use crate::generate::Case;
use crate::model::Call;
use crate::plan::{Kind, Plan, Polygon, Query};
use crate::sessions::Session;
use std::time::{Duration, Instant};

/// How often, and how long, smaller sessions are tried before the smallest so far is taken.
const TRIES: usize = 20_000;
const TIME: Duration = Duration::from_secs(60);

/// Coordinates up to this size are made less one by one.
const SMALL: i64 = 64;

/// A session in pieces that can be left out.
#[derive(Clone)]
struct Pieces {
    kind: Kind,
    /// The polygons of a list; of a tree, each ring by itself.
    groups: Vec<Polygon>,
    undo_rows: usize,
    calls: Vec<Call>,
    queries: Vec<Query>,
}

/// The smallest session that is found and still fails. The given one has to fail.
pub fn shrunk(session: &Session, fails: impl FnMut(&Session) -> bool) -> Session {
    let mut search = Search {
        smallest: Pieces::of(session),
        tries: TRIES,
        until: Instant::now() + TIME,
        fails,
    };
    while search.pass() {}
    search.smallest.session()
}

struct Search<F> {
    smallest: Pieces,
    tries: usize,
    until: Instant,
    fails: F,
}

impl<F: FnMut(&Session) -> bool> Search<F> {
    /// Leaves out and halves whatever can be; whether anything was.
    fn pass(&mut self) -> bool {
        let mut smaller = self.drop_points();
        smaller |= self.drop_calls();
        smaller |= self.drop_groups();
        smaller |= self.drop_rings();
        smaller |= self.drop_corners();
        smaller |= self.shorten_undo_table();
        smaller |= self.halve_all();
        smaller | self.lessen_each()
    }

    /// Takes other pieces if they still fail.
    fn take(&mut self, pieces: Pieces) -> bool {
        if self.tries == 0 || Instant::now() > self.until {
            return false;
        }
        self.tries -= 1;
        let taken = (self.fails)(&pieces.session());
        if taken {
            self.smallest = pieces;
        }
        taken
    }

    /// Leaves out ever shorter stretches of a list of `count` pieces; `without` leaves out `count` of them from a place on.
    fn drop_stretches(
        &mut self,
        count: usize,
        without: impl Fn(&mut Pieces, usize, usize),
    ) -> bool {
        let mut left = count;
        let mut length = count;
        while length > 0 {
            let mut start = 0;
            while start < left {
                let stretch = length.min(left - start);
                let mut pieces = self.smallest.clone();
                without(&mut pieces, start, stretch);
                if self.take(pieces) {
                    left -= stretch;
                } else {
                    start += stretch;
                }
            }
            length /= 2;
        }
        left < count
    }

    fn drop_points(&mut self) -> bool {
        self.drop_stretches(self.smallest.queries.len(), |pieces, start, count| {
            pieces.queries.drain(start..start + count);
        })
    }

    fn drop_calls(&mut self) -> bool {
        self.drop_stretches(self.smallest.calls.len(), |pieces, start, count| {
            pieces.calls.drain(start..start + count);
        })
    }

    fn drop_groups(&mut self) -> bool {
        self.drop_stretches(self.smallest.groups.len(), |pieces, start, count| {
            let corners = |groups: &[Polygon]| groups.iter().flatten().map(Vec::len).sum();
            let before: usize = corners(&pieces.groups[..start]);
            let dropped: usize = corners(&pieces.groups[start..start + count]);
            pieces.groups.drain(start..start + count);
            pieces.forget_corners(before, dropped);
        })
    }

    /// Leaves out rings of polygons that keep one.
    fn drop_rings(&mut self) -> bool {
        let mut smaller = false;
        for group in 0..self.smallest.groups.len() {
            let mut ring = 0;
            while self.smallest.groups[group].len() > 1 && ring < self.smallest.groups[group].len()
            {
                let mut pieces = self.smallest.clone();
                let before = pieces.corners_before(group, ring);
                let dropped = pieces.groups[group].remove(ring).len();
                pieces.forget_corners(before, dropped);
                if self.take(pieces) {
                    smaller = true;
                } else {
                    ring += 1;
                }
            }
        }
        smaller
    }

    fn drop_corners(&mut self) -> bool {
        let mut smaller = false;
        for group in 0..self.smallest.groups.len() {
            for ring in 0..self.smallest.groups[group].len() {
                let corners = self.smallest.groups[group][ring].len();
                smaller |= self.drop_stretches(corners, |pieces, start, count| {
                    let before = pieces.corners_before(group, ring) + start;
                    pieces.groups[group][ring].drain(start..start + count);
                    pieces.forget_corners(before, count);
                });
            }
        }
        smaller
    }

    fn shorten_undo_table(&mut self) -> bool {
        let mut smaller = false;
        while self.smallest.undo_rows > 0 {
            let mut pieces = self.smallest.clone();
            pieces.undo_rows /= 2;
            if !self.take(pieces) {
                break;
            }
            smaller = true;
        }
        smaller
    }

    /// Halves all coordinates together, then all x, then all y.
    fn halve_all(&mut self) -> bool {
        let mut smaller = false;
        for halved in [&[0, 1][..], &[0], &[1]] {
            smaller |= self.halve_axes(halved);
        }
        smaller
    }

    /// Halves the coordinates of these axes, 0 for x and 1 for y, for as long as that is possible.
    fn halve_axes(&mut self, axes: &[usize]) -> bool {
        let mut smaller = false;
        loop {
            let mut pieces = self.smallest.clone();
            let mut changed = false;
            for (place, number) in pieces.coordinates().into_iter().enumerate() {
                if axes.contains(&(place % 2)) {
                    changed |= halve(number);
                }
            }
            if !changed || !self.take(pieces) {
                return smaller;
            }
            smaller = true;
        }
    }

    /// Halves coordinates one by one, and takes small ones nearer to 0 by one.
    fn lessen_each(&mut self) -> bool {
        let mut smaller = false;
        for place in 0..self.smallest.coordinates().len() {
            for lessen in [halve, step] {
                smaller |= self.lessen(place, lessen);
            }
        }
        smaller
    }

    /// Makes one coordinate less for as long as that is possible.
    fn lessen(&mut self, place: usize, lessen: fn(&mut i64) -> bool) -> bool {
        let mut smaller = false;
        loop {
            let mut pieces = self.smallest.clone();
            let changed = lessen(pieces.coordinates().swap_remove(place));
            if !changed || !self.take(pieces) {
                return smaller;
            }
            smaller = true;
        }
    }
}

/// Halves a number towards 0; whether it is another one then.
fn halve(number: &mut i64) -> bool {
    let before = *number;
    *number /= 2;
    *number != before
}

/// Takes a small number nearer to 0 by one; whether it is another one then.
fn step(number: &mut i64) -> bool {
    let before = *number;
    if before.abs() <= SMALL {
        *number -= before.signum();
    }
    *number != before
}

impl Pieces {
    fn of(session: &Session) -> Pieces {
        let plan = &session.case.plan;
        Pieces {
            kind: plan.kind,
            groups: match plan.kind {
                Kind::List => plan.polygons(),
                Kind::Tree => plan.rings().into_iter().map(|ring| vec![ring]).collect(),
            },
            undo_rows: session.undo_rows,
            calls: session.calls.clone(),
            queries: session.case.queries.clone(),
        }
    }

    fn session(&self) -> Session {
        let plan = match self.kind {
            Kind::List => Plan::list(&self.groups),
            Kind::Tree => Plan::tree(&self.groups.concat()),
        };
        Session {
            case: Case {
                plan,
                queries: self.queries.clone(),
            },
            undo_rows: self.undo_rows,
            calls: self.calls.clone(),
        }
    }

    /// The number of the first corner of a ring.
    fn corners_before(&self, group: usize, ring: usize) -> usize {
        let earlier = self.groups[..group].iter().flatten();
        let rings = earlier.chain(&self.groups[group][..ring]);
        rings.map(Vec::len).sum()
    }

    /// Corrects the corners' numbers in moves after corners were left out; moves of these are left out too.
    fn forget_corners(&mut self, first: usize, count: usize) {
        let end = first + count;
        self.calls.retain_mut(|call| match call {
            Call::Move { corner, .. } if *corner >= end => {
                *corner -= count;
                true
            }
            Call::Move { corner, .. } => *corner < first,
            Call::Undo => true,
        });
    }

    /// The coordinates of corners, points and new places: x, y, x, y, ..
    fn coordinates(&mut self) -> Vec<&mut i64> {
        let mut coordinates = Vec::new();
        let corners = self.groups.iter_mut().flatten().flatten();
        coordinates.extend(corners.flat_map(|(x, y)| [x, y]));
        let points = self.queries.iter_mut();
        coordinates.extend(points.flat_map(|query| [&mut query.x, &mut query.y]));
        for call in &mut self.calls {
            if let Call::Move { to: (x, y), .. } = call {
                coordinates.extend([x, y]);
            }
        }
        coordinates
    }
}
