//! Plans prepared for look-ups and corrections.

use crate::library::{self, First, State, Tables};
use crate::location::Location;
use crate::plan::{Kind, Plan};
use crate::point::Point;
use crate::refusal::Refusal;
use crate::{MAX_CORNERS, MAX_POLYGONS, MAX_RINGS, MAX_UNDO, wkt};
use std::fmt;

/// A closed box: all points between two corners.
#[derive(Clone, Copy, Debug, PartialEq, Eq, Hash)]
pub struct Rect {
    /// The corner with the least x and y.
    pub min: Point,
    /// The corner with the greatest x and y.
    pub max: Point,
}

/// A plan with a hierarchy of boxes over its edges, in tables of its own.
///
/// Look-ups go by the corners as they now stand. A plan with a corner out of range (beyond ±[`MAX_COORD`](crate::MAX_COORD)) is
/// accepted: every point is outside of it, and nothing in it can be moved.
///
/// Two prepared plans are equal where all their tables are, and the moves that can be undone; how many more could be recorded does not count.
#[derive(Clone)]
pub struct Prepared {
    state: State,
    nodes: usize,
    tables: Tables,
    /// Corner, old x, old y of each move; the first `state.undo_depth` rows count.
    undo: Vec<[i64; 3]>,
}

impl Prepared {
    /// Prepares a plan for look-ups. There is no room to record moves, so that each is refused with [`Refusal::UndoFull`].
    ///
    /// # Errors
    ///
    /// [`Refusal::TooMany`] (4) where the plan has more corners, rings or polygons than their ceilings, else [`Refusal::Uneven`] (3)
    /// where its tables do not fit together.
    pub fn new(plan: &Plan) -> Result<Prepared, Refusal> {
        Prepared::with_undo(plan, 0)
    }

    /// Prepares a plan for look-ups and corrections, with room for as many moves to be undone. A record takes 24 bytes.
    ///
    /// # Errors
    ///
    /// As [`Prepared::new`], and [`Refusal::TooMany`] (4) where room is asked for more than [`MAX_UNDO`] moves.
    pub fn with_undo(plan: &Plan, moves: usize) -> Result<Prepared, Refusal> {
        if moves > MAX_UNDO {
            return Err(Refusal::TooMany);
        }
        let mut tables = tables_for(plan);
        let preparing = tables.prepare(
            plan.kind().number(),
            plan.corners(),
            plan.ring_lengths(),
            plan.ring_counts(),
        );
        if preparing.refusal != 0 {
            return Err(Refusal::of_number(preparing.refusal, preparing.table));
        }
        Ok(Prepared {
            state: preparing.state,
            nodes: preparing.nodes,
            tables,
            undo: vec![[0; 3]; moves],
        })
    }

    /// Where a point lies, through the boxes.
    ///
    /// The work goes by the edges whose boxes a ray from the point to the plan's nearest side meets.
    #[inline]
    pub fn locate(&self, point: Point) -> Location {
        location(self.tables.locate(self.state, point))
    }

    /// Where a point of the half-grid lies, through the boxes, given as twice the point: each coordinate within
    /// ±[`MAX_DOUBLED`](crate::MAX_DOUBLED), else it is outside.
    ///
    /// On any edge is on the boundary; otherwise inside if a ray crosses an odd number of edges, those of all rings counted alike. So an
    /// outline that goes round a point twice has it outside here, and inside by [`Prepared::locate`].
    ///
    /// ```
    /// # use findspot::{Location, Plan, Point, Prepared};
    /// let square = Prepared::new(&Plan::ring([(0, 0), (10, 0), (10, 10), (0, 10)]))?;
    /// // (0.5, 0.5), (0, 0.5) and (-0.5, 0.5)
    /// assert_eq!(square.locate_doubled(Point::new(1, 1)), Location::Inside);
    /// assert_eq!(square.locate_doubled(Point::new(0, 1)), Location::OnBoundary);
    /// assert_eq!(square.locate_doubled(Point::new(-1, 1)), Location::Outside);
    /// # Ok::<(), findspot::Refusal>(())
    /// ```
    #[inline]
    pub fn locate_doubled(&self, doubled: Point) -> Location {
        location(self.tables.locate_doubled(self.state, doubled))
    }

    /// Where a point lies, ring by ring: the same reply as [`Prepared::locate`], from every edge of every ring that can decide.
    #[inline]
    pub fn locate_by_rings(&self, point: Point) -> Location {
        location(self.tables.locate_by_rings(self.state, point))
    }

    /// Where a point of the half-grid lies, ring by ring: the same reply as [`Prepared::locate_doubled`].
    #[inline]
    pub fn locate_doubled_by_rings(&self, doubled: Point) -> Location {
        location(self.tables.locate_doubled_by_rings(self.state, doubled))
    }

    /// The place in the list, from 0, of the first point that is not outside, or none where all of them are.
    ///
    /// ```
    /// # use findspot::{Plan, Point, Prepared};
    /// let square = Prepared::new(&Plan::ring([(0, 0), (10, 0), (10, 10), (0, 10)]))?;
    /// let points = [Point::new(11, 5), Point::new(10, 5), Point::new(5, 5)];
    /// assert_eq!(square.first_not_outside(&points)?, Some(1));
    /// assert_eq!(square.first_not_outside(&points[..1])?, None);
    /// # Ok::<(), findspot::Refusal>(())
    /// ```
    ///
    /// # Errors
    ///
    /// [`Refusal::TooMany`] (4) where there are more than [`MAX_POINTS`](crate::MAX_POINTS) points.
    pub fn first_not_outside(&self, points: &[Point]) -> Result<Option<usize>, Refusal> {
        match self.tables.first_not_outside(self.state, points) {
            First {
                refusal: 0,
                found: 0,
                ..
            } => Ok(None),
            First {
                refusal: 0, place, ..
            } => Ok(Some(place)),
            First { refusal, .. } => Err(Refusal::of_number(refusal, 0)),
        }
    }

    /// Moves a corner to another place and records its old one; a move to the place where it stands is recorded too. The boxes above the
    /// corner's two edges are made the smallest again.
    ///
    /// It costs a few hundred entries of a plan of a million corners, and at worst, with all corners at one place, as much as the plan is
    /// long.
    ///
    /// # Errors
    ///
    /// In this order, and then nothing is changed: [`Refusal::PlanOutOfRange`] (12), [`Refusal::NoSuchCorner`] (5),
    /// [`Refusal::PlaceOutOfRange`] (6), [`Refusal::UndoFull`] (13).
    pub fn move_corner(&mut self, corner: usize, place: Point) -> Result<(), Refusal> {
        let correction = self
            .tables
            .move_corner(self.state, &mut self.undo, corner, place);
        self.state = correction.state;
        accepted(correction.refusal)
    }

    /// Takes back the latest move that is not yet undone. Its room serves again.
    ///
    /// # Errors
    ///
    /// In this order, and then nothing is changed: [`Refusal::PlanOutOfRange`] (12), [`Refusal::NothingToUndo`] (14).
    pub fn undo(&mut self) -> Result<(), Refusal> {
        let correction = self.tables.undo(self.state, &self.undo);
        self.state = correction.state;
        accepted(correction.refusal)
    }

    /// How many moves can be undone.
    pub fn undo_depth(&self) -> usize {
        self.state.undo_depth
    }

    /// How many moves can be recorded in all.
    pub fn undo_capacity(&self) -> usize {
        self.undo.len()
    }

    /// The plan's kind.
    pub fn kind(&self) -> Kind {
        Kind::of_number(self.state.kind)
    }

    /// Whether every corner is in range.
    pub fn in_range(&self) -> bool {
        self.state.out_of_range == 0
    }

    /// All corners as they now stand, ring after ring.
    pub fn corners(&self) -> &[Point] {
        &self.tables.corners
    }

    /// The corners of each ring as they now stand.
    pub fn rings(&self) -> impl Iterator<Item = &[Point]> {
        lengths_of(&self.tables.rings).scan(self.corners(), |rest, length| {
            let (ring, after) = rest.split_at(length);
            *rest = after;
            Some(ring)
        })
    }

    /// The plan with its corners as they now stand, to be prepared anew.
    pub fn plan(&self) -> Plan {
        let (lengths, counts) = self.lengths_and_counts();
        Plan::from_tables(self.kind(), self.tables.corners.clone(), lengths, counts)
    }

    /// The plan with its corners as they now stand, as Well-Known Text: [`Plan::to_wkt`] of [`Prepared::plan`], without a copy of the corners. It
    /// takes 8 bytes a ring and polygon more than that call does.
    ///
    /// ```
    /// # use findspot::{Plan, Point, Prepared};
    /// let plan = Plan::from_wkt(b"POLYGON ((0 0, 8 0, 0 8, 0 0))")?;
    /// let mut prepared = Prepared::with_undo(&plan, 1)?;
    /// prepared.move_corner(1, Point::new(9, 0))?;
    /// assert_eq!(prepared.to_wkt()?, "MULTIPOLYGON (((0 0, 9 0, 0 8, 0 0)))");
    /// # Ok::<(), findspot::Refusal>(())
    /// ```
    ///
    /// # Errors
    ///
    /// In this order: [`Refusal::Unclosed`] (22) where the plan is a tree or has an empty ring; [`Refusal::TextTooLong`] (1) where the text would
    /// have more than [`MAX_TEXT`](crate::MAX_TEXT) bytes.
    pub fn to_wkt(&self) -> Result<String, Refusal> {
        let (lengths, counts) = self.lengths_and_counts();
        wkt::write(self.kind(), self.corners(), &lengths, &counts)
    }

    /// The number of nodes of the hierarchy of boxes; 0 where the plan is out of range.
    pub fn node_count(&self) -> usize {
        self.nodes
    }

    /// The smallest box round all edges, or none where there is no corner or one is out of range.
    pub fn extent(&self) -> Option<Rect> {
        if !self.in_range() || self.corners().is_empty() {
            return None;
        }
        let [left, bottom, right, top] = *self.tables.boxes.first()?;
        Some(Rect {
            min: Point::new(left, bottom),
            max: Point::new(right, top),
        })
    }

    /// The number of corners of each ring and, for a list, of rings of each polygon, as a plan has them.
    fn lengths_and_counts(&self) -> (Vec<usize>, Vec<usize>) {
        let lengths = lengths_of(&self.tables.rings).collect();
        let counts = lengths_of(&self.tables.polygons).collect();
        (lengths, counts)
    }
}

impl PartialEq for Prepared {
    fn eq(&self, other: &Prepared) -> bool {
        let depth = self.state.undo_depth;
        self.state == other.state
            && self.nodes == other.nodes
            && self.tables == other.tables
            && self.undo[..depth] == other.undo[..depth]
    }
}

impl Eq for Prepared {}

/// The counts alone: tables may have millions of entries.
impl fmt::Debug for Prepared {
    fn fmt(&self, formatter: &mut fmt::Formatter<'_>) -> fmt::Result {
        formatter
            .debug_struct("Prepared")
            .field("kind", &self.kind())
            .field("in_range", &self.in_range())
            .field("corners", &self.state.corners)
            .field("rings", &self.state.rings)
            .field("polygons", &self.state.polygons)
            .field("nodes", &self.nodes)
            .field("undo_depth", &self.undo_depth())
            .field("undo_capacity", &self.undo_capacity())
            .finish_non_exhaustive()
    }
}

/// The place of a number that a look-up answers. Over tables that the library made no other number comes.
pub(crate) fn location(number: i64) -> Location {
    match number {
        0 => Location::Outside,
        1 => Location::Inside,
        2 => Location::OnBoundary,
        other => {
            panic!("the library linked is not that of this crate: it answers {other} to a look-up")
        }
    }
}

fn accepted(refusal: usize) -> Result<(), Refusal> {
    match refusal {
        0 => Ok(()),
        number => Err(Refusal::of_number(number, 0)),
    }
}

/// The lengths of parts, from where each ends.
fn lengths_of(ends: &[usize]) -> impl Iterator<Item = usize> {
    let starts = [0].into_iter().chain(ends.iter().copied());
    ends.iter().zip(starts).map(|(end, start)| end - start)
}

/// Tables that are long enough for a plan, if it is one that is accepted. For a plan above the ceiling they are of no account: it is
/// refused before they are looked at.
fn tables_for(plan: &Plan) -> Tables {
    let corners = plan.corners().len().min(MAX_CORNERS);
    let nodes = library::node_count(corners);
    let polygons = match plan.kind() {
        Kind::List => plan.ring_counts().len().min(MAX_POLYGONS),
        Kind::Tree => 0,
    };
    Tables {
        corners: vec![Point::default(); corners],
        rings: vec![0; plan.ring_lengths().len().min(MAX_RINGS)],
        polygons: vec![0; polygons],
        boxes: vec![[0; 4]; nodes],
        parts: vec![[0; 3]; nodes],
        edges: vec![0; corners],
    }
}
