//! A plan as it is handed over.

use crate::point::Point;
use crate::refusal::Refusal;
use crate::{text, wkt};

/// How the rings of a plan make up its region.
#[derive(Clone, Copy, Debug, PartialEq, Eq, Hash)]
pub enum Kind {
    /// A list of polygons, each an outer ring and then its holes. A point inside any of them is inside, else on the boundary of any of
    /// them is on the boundary.
    List,
    /// A tree of rings, whatever their nesting and order. A point on any ring is on the boundary, else inside if an odd number of rings
    /// go round it.
    Tree,
}

impl Kind {
    /// The kind's number at the library: 0 a list, 1 a tree.
    pub(crate) fn number(self) -> usize {
        match self {
            Kind::List => 0,
            Kind::Tree => 1,
        }
    }

    /// The kind of a number that the library answers.
    pub(crate) fn of_number(number: usize) -> Kind {
        match number {
            0 => Kind::List,
            1 => Kind::Tree,
            other => panic!("the library linked is not that of this crate: it names kind {other}"),
        }
    }
}

/// An outline with or without holes, a list of such polygons, or a tree of outlines.
///
/// Corners, edges and rings are numbered from 0 in the order in which they are handed over. Edge i starts at corner i; the last edge of a
/// ring ends at the ring's first corner. Rings may be empty, and may cross and repeat themselves.
///
/// A plan is judged when it is prepared or written, by the proved code: [`Refusal::TooMany`] or [`Refusal::Uneven`]. Making one refuses nothing.
#[derive(Clone, Debug, PartialEq, Eq, Hash)]
pub struct Plan {
    kind: Kind,
    corners: Vec<Point>,
    ring_lengths: Vec<usize>,
    ring_counts: Vec<usize>,
}

impl Plan {
    /// A plan of one outline.
    ///
    /// ```
    /// # use findspot::{Location, Plan, Point, Prepared};
    /// let triangle = Prepared::new(&Plan::ring([(0, 0), (8, 0), (0, 8)]))?;
    /// assert_eq!(triangle.locate(Point::new(4, 4)), Location::OnBoundary);
    /// # Ok::<(), findspot::Refusal>(())
    /// ```
    pub fn ring(corners: impl IntoIterator<Item = impl Into<Point>>) -> Plan {
        Plan::polygon([corners])
    }

    /// A plan of one polygon: its outer ring and then its holes, of which the first that a point is not outside of decides.
    pub fn polygon<Ring>(rings: impl IntoIterator<Item = Ring>) -> Plan
    where
        Ring: IntoIterator<Item: Into<Point>>,
    {
        Plan::list([rings])
    }

    /// A list of polygons, each an outer ring and then its holes. One of no rings makes the list [`Refusal::Uneven`].
    ///
    /// ```
    /// # use findspot::{Location, Plan, Point, Prepared};
    /// let first = [[(0, 0), (10, 0), (10, 10), (0, 10)]];
    /// let second = [[(5, 0), (15, 0), (15, 10), (5, 10)]];
    /// let list = Prepared::new(&Plan::list([first, second]))?;
    /// assert_eq!(list.locate(Point::new(10, 5)), Location::Inside);
    /// # Ok::<(), findspot::Refusal>(())
    /// ```
    pub fn list<Polygon, Ring>(polygons: impl IntoIterator<Item = Polygon>) -> Plan
    where
        Polygon: IntoIterator<Item = Ring>,
        Ring: IntoIterator<Item: Into<Point>>,
    {
        let mut plan = Plan::empty(Kind::List);
        for polygon in polygons {
            let before = plan.ring_lengths.len();
            plan.add_rings(polygon);
            plan.ring_counts.push(plan.ring_lengths.len() - before);
        }
        plan
    }

    /// A tree of rings.
    ///
    /// ```
    /// # use findspot::{Location, Plan, Point, Prepared};
    /// let outer = [(0, 0), (10, 0), (10, 10), (0, 10)];
    /// let inner = [(2, 2), (8, 2), (8, 8), (2, 8)];
    /// let tree = Prepared::new(&Plan::tree([outer, inner]))?;
    /// assert_eq!(tree.locate(Point::new(1, 1)), Location::Inside);
    /// assert_eq!(tree.locate(Point::new(5, 5)), Location::Outside);
    /// # Ok::<(), findspot::Refusal>(())
    /// ```
    pub fn tree<Ring>(rings: impl IntoIterator<Item = Ring>) -> Plan
    where
        Ring: IntoIterator<Item: Into<Point>>,
    {
        let mut plan = Plan::empty(Kind::Tree);
        plan.add_rings(rings);
        plan
    }

    /// The plan of tables as they are: all corners, the number of corners of each ring and, for a list, the number of rings of each polygon.
    /// Tables that do not fit together are refused when the plan is prepared or written. A tree's ring counts are not looked at.
    pub fn from_tables(
        kind: Kind,
        corners: Vec<Point>,
        ring_lengths: Vec<usize>,
        ring_counts: Vec<usize>,
    ) -> Plan {
        Plan {
            kind,
            corners,
            ring_lengths,
            ring_counts,
        }
    }

    /// The plan that a text holds: a record a line, fields parted by single tabs, each line ended by a line feed. First `plan`, alone or with
    /// `list` or `tree`; alone it is a list. Then `outer` and `hole` (lists) or `node` (trees) open a ring, and `at`, x, y is a
    /// corner of it. Numbers are decimal, of 64 bits, with no leading zero, plus sign or -0.
    ///
    /// ```
    /// # use findspot::{Location, Plan, Point, Prepared, Refusal};
    /// let plan = Plan::from_text(b"plan\tlist\nouter\nat\t0\t0\nat\t8\t0\nat\t0\t8\n")?;
    /// assert_eq!(Prepared::new(&plan)?.locate(Point::new(1, 1)), Location::Inside);
    /// assert_eq!(Plan::from_text(b"plan\nhole\n"), Err(Refusal::BadLine(2)));
    /// # Ok::<(), findspot::Refusal>(())
    /// ```
    ///
    /// The reader is the library's, which is proved.
    ///
    /// # Errors
    ///
    /// [`Refusal::TextTooLong`] (1), else [`Refusal::BadLine`] (2) with the first line that breaks the format; a last line that is not ended
    /// breaks it. [`line`](crate::line) gives that line, and [`Refusal::explain`] says what is wrong with it.
    pub fn from_text(text: &[u8]) -> Result<Plan, Refusal> {
        text::read(text)
    }

    /// The plan that a Well-Known Text holds, `POLYGON` or `MULTIPOLYGON` of OGC Simple Features. It is always a list.
    ///
    /// Words are capitals, and numbers those of [`Plan::from_text`]. Spaces are free round brackets and commas; one or more part the numbers
    /// of a position and a word from `EMPTY`. No other byte is taken: of a file's text the line end has to be cut off. Each ring ends with
    /// its first position again, which is dropped. `EMPTY` stands for the whole or for a member of a `MULTIPOLYGON`, and adds no polygon.
    ///
    /// ```
    /// # use findspot::{Plan, Refusal};
    /// let outer = [(0, 0), (10, 0), (10, 10)];
    /// let plan = Plan::from_wkt(b"POLYGON ((0 0, 10 0, 10 10, 0 0))")?;
    /// assert_eq!(plan, Plan::ring(outer));
    /// let plan = Plan::from_wkt(b"MULTIPOLYGON(((0 0,10 0,10 10,0 0),(9 5,9 6,8 5,9 5)),EMPTY)")?;
    /// assert_eq!(plan, Plan::polygon([outer, [(9, 5), (9, 6), (8, 5)]]));
    ///
    /// assert_eq!(Plan::from_wkt(b"POLYGON Z EMPTY"), Err(Refusal::OffGrammar(8)));
    /// assert_eq!(Plan::from_wkt(b"POLYGON ((0 0, 10 0, 10 10))"), Err(Refusal::Unclosed));
    /// # Ok::<(), findspot::Refusal>(())
    /// ```
    ///
    /// The reader is the library's, which is proved.
    ///
    /// # Errors
    ///
    /// In this order: [`Refusal::TextTooLong`] (1); [`Refusal::OffGrammar`] (21) with the place, from 0, at which the text leaves the grammar, or
    /// its length where it only ends early; [`Refusal::Unclosed`] (22) where the ends of a ring differ or it has one position.
    /// [`Refusal::explain`] says what is due at 21's place.
    pub fn from_wkt(text: &[u8]) -> Result<Plan, Refusal> {
        wkt::read(text)
    }

    /// The plan as Well-Known Text: a `MULTIPOLYGON`, of one polygon too, with one space behind that word, behind each comma and between x and y,
    /// and no other; `MULTIPOLYGON EMPTY` where there is no polygon. Each ring ends with its first corner again. Coordinates may be out of
    /// range. [`Plan::from_wkt`] reads the same plan from it.
    ///
    /// ```
    /// # use findspot::{Plan, Refusal};
    /// let plan = Plan::ring([(0, 0), (8, 0), (0, 8)]);
    /// assert_eq!(plan.to_wkt()?, "MULTIPOLYGON (((0 0, 8 0, 0 8, 0 0)))");
    /// assert_eq!(Plan::from_wkt(plan.to_wkt()?.as_bytes())?, plan);
    ///
    /// assert_eq!(Plan::tree([[(0, 0), (8, 0), (0, 8)]]).to_wkt(), Err(Refusal::Unclosed));
    /// # Ok::<(), findspot::Refusal>(())
    /// ```
    ///
    /// The writer is the library's, which is proved. Each call lends it [`MAX_TEXT`](crate::MAX_TEXT) bytes, whatever comes of it; the answer keeps
    /// no more than the text has.
    ///
    /// # Errors
    ///
    /// In this order: [`Refusal::TooMany`] (4) and [`Refusal::Uneven`] (3) as [`Prepared::new`](crate::Prepared::new); [`Refusal::Unclosed`] (22)
    /// where the plan is a tree or has an empty ring; [`Refusal::TextTooLong`] (1) where the text would have more than
    /// [`MAX_TEXT`](crate::MAX_TEXT) bytes.
    pub fn to_wkt(&self) -> Result<String, Refusal> {
        wkt::write(
            self.kind,
            &self.corners,
            &self.ring_lengths,
            &self.ring_counts,
        )
    }

    /// The plan's kind.
    pub fn kind(&self) -> Kind {
        self.kind
    }

    /// All corners, ring after ring.
    pub fn corners(&self) -> &[Point] {
        &self.corners
    }

    /// The number of corners of each ring.
    pub fn ring_lengths(&self) -> &[usize] {
        &self.ring_lengths
    }

    /// The number of rings of each polygon of a list.
    pub fn ring_counts(&self) -> &[usize] {
        &self.ring_counts
    }

    /// A plan of no rings.
    fn empty(kind: Kind) -> Plan {
        Plan::from_tables(kind, Vec::new(), Vec::new(), Vec::new())
    }

    /// Adds rings with their corners.
    fn add_rings<Ring>(&mut self, rings: impl IntoIterator<Item = Ring>)
    where
        Ring: IntoIterator<Item: Into<Point>>,
    {
        for ring in rings {
            let before = self.corners.len();
            self.corners.extend(ring.into_iter().map(Into::into));
            self.ring_lengths.push(self.corners.len() - before);
        }
    }
}

#[cfg(test)]
mod tests {
    use super::Plan;
    use crate::MAX_TEXT;

    #[test]
    fn a_plan_that_was_read_keeps_no_more_room_than_it_fills() {
        let text = b"POLYGON((0 0,0 0))";
        let padded = [text, &b" ".repeat(MAX_TEXT)[text.len()..]].concat();
        let own = b"plan\nouter\nat\t0\t0\n";
        for plan in [Plan::from_wkt(&padded), Plan::from_text(own)] {
            let plan = plan.expect("it is read");
            assert_eq!(plan.corners.capacity(), 1);
            assert_eq!(plan.ring_lengths.capacity(), 1);
            assert_eq!(plan.ring_counts.capacity(), 1);
        }
    }
}
