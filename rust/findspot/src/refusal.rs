//! Why a call is refused, by number.

use crate::{MAX_COORD, MAX_CORNERS, MAX_POINTS, MAX_POLYGONS, MAX_RINGS, MAX_TEXT, MAX_UNDO};
use crate::{text, wkt};
use std::borrow::Cow;
use std::error::Error;
use std::fmt;

/// What to do about refusal 1, on reading and on writing.
const SHORTEN: &str = "split the plan or, where it was to be read from text, hand it over as rings";

/// What to do about refusal 2.
const MEND_LINE: &str = "mend it: `plan` comes first, alone or with `list` or `tree`, then `outer`, `hole` or `node` for a ring and `at` \
    with x and y for a corner, with single tabs between fields and a line feed after each line";

/// What to do about refusal 3.
const MEND_COUNTS: &str = "the ring lengths have to sum to the corners and, in a list, the ring counts to the rings, with a ring in each \
    polygon";

/// What to do about refusal 11.
const BUILD_BOTH: &str =
    "it is not the one that belongs to this crate: build both from one state of the repository";

/// What to do about refusal 21.
const MEND_WKT: &str = "mend it there: `POLYGON` or `MULTIPOLYGON` comes first, then `EMPTY` or brackets with rings such as \
    `(0 0, 8 0, 0 8, 0 0)`, with words in capitals, whole numbers of 64 bits in their shortest form, and no tab or line end";

/// What is wrong where refusal 22 comes, on reading and on writing.
const UNCLOSED: &str = "a ring of the text ends elsewhere than it begins or has one position, or the plan to be written is a tree or has an \
    empty ring";

/// Why a call is refused. A refused call has changed nothing.
#[derive(Clone, Copy, Debug, PartialEq, Eq, Hash)]
#[non_exhaustive]
pub enum Refusal {
    /// 1: the text has more than [`MAX_TEXT`] bytes, or the text of a plan to be written would have.
    TextTooLong,
    /// 2: the first line, counted from 1, that breaks the text's format. An empty text breaks it in line 1.
    BadLine(usize),
    /// 3: the ring lengths do not sum to the corners or, in a list, the ring counts do not sum to the rings or a polygon has no ring.
    Uneven,
    /// 4: more corners, rings, polygons, listed points or moves to undo than their ceilings.
    TooMany,
    /// 5: no such corner.
    NoSuchCorner,
    /// 6: the new place of a corner is out of range.
    PlaceOutOfRange,
    /// 11: a table that the library was lent is too short. This crate lends tables that are long enough.
    TableTooShort(Table),
    /// 12: a move or undo on a plan that has a corner out of range.
    PlanOutOfRange,
    /// 13: as many moves as can be kept for undoing are made.
    UndoFull,
    /// 14: no move is left to undo.
    NothingToUndo,
    /// 15: the tables are not such as preparing and corrections leave. Those of this crate are.
    Unsound,
    /// 21: the place, counted from 0, at which a text leaves the grammar of Well-Known Text: the bytes before it begin a text of the grammar, and
    /// with the byte there they begin none. It is the text's length where the text only ends early.
    OffGrammar(usize),
    /// 22: a ring of a Well-Known Text whose ends differ or that has one position; or a plan to be written as Well-Known Text that is a tree or has
    /// an empty ring, for which there are no closed rings.
    Unclosed,
}

/// The tables that the library is lent, in the order in which refusal 11 looks at them. The output goes alone.
#[derive(Clone, Copy, Debug, PartialEq, Eq, Hash)]
#[non_exhaustive]
pub enum Table {
    /// The corners.
    Corners,
    /// Where each ring ends.
    Rings,
    /// Where the rings of each polygon end.
    Polygons,
    /// The boxes, and the parts of the edge list that they stand for.
    Nodes,
    /// The edge list.
    Edges,
    /// The bytes into which Well-Known Text is written.
    Output,
}

impl Refusal {
    /// The refusal's number: 1 to 6 come from what was handed over, 11 to 15 from the state of the plan, 21 and 22 from Well-Known Text.
    pub const fn number(self) -> u8 {
        match self {
            Refusal::TextTooLong => 1,
            Refusal::BadLine(_) => 2,
            Refusal::Uneven => 3,
            Refusal::TooMany => 4,
            Refusal::NoSuchCorner => 5,
            Refusal::PlaceOutOfRange => 6,
            Refusal::TableTooShort(_) => 11,
            Refusal::PlanOutOfRange => 12,
            Refusal::UndoFull => 13,
            Refusal::NothingToUndo => 14,
            Refusal::Unsound => 15,
            Refusal::OffGrammar(_) => 21,
            Refusal::Unclosed => 22,
        }
    }

    /// The message, with what is wrong in the line of the refused text that refusal 2 names, or at the place that refusal 21 names. Any other
    /// refusal says what it always does.
    ///
    /// For refusal 21 the library is asked which bytes may stand at the place: up to 96 readings of the text up to there, so the cost is linear in
    /// the place.
    ///
    /// ```
    /// # use findspot::Plan;
    /// let text = b"plan\nouter\nat 0 0\n";
    /// let refusal = Plan::from_text(text).unwrap_err();
    /// assert!(refusal.explain(text).starts_with(
    ///     "refusal 2: line 3 breaks the format: it has a space where a tab is due; mend it: "
    /// ));
    /// let text = b"POLYGON ((0 0, 8.5 0, 0 8, 0 0))";
    /// let refusal = Plan::from_wkt(text).unwrap_err();
    /// assert!(refusal.explain(text).starts_with(
    ///     "refusal 21: at byte 16, counted from 0, the text leaves the grammar of Well-Known Text: `.` stands there, where a space \
    ///      or a digit from 0 to 9 is due; mend it there: "
    /// ));
    /// ```
    pub fn explain(self, text: &[u8]) -> String {
        let fault = match self {
            Refusal::BadLine(line) => text::fault(text, line).to_string(),
            Refusal::OffGrammar(place) => wkt::fault(text, place),
            _ => return self.to_string(),
        };
        self.message(&format!("{}: {fault}", self.wrong()))
    }

    /// The number, what is wrong, and what to do about it.
    fn message(self, wrong: &str) -> String {
        format!("refusal {}: {wrong}; {}", self.number(), self.remedy())
    }

    /// What is wrong.
    fn wrong(self) -> Cow<'static, str> {
        match self {
            Refusal::TextTooLong => {
                format!("the text has, or would have, more than {MAX_TEXT} bytes").into()
            }
            Refusal::BadLine(line) => format!("line {line} breaks the format").into(),
            Refusal::Uneven => "the plan's tables do not fit together".into(),
            Refusal::TooMany => "too many entries".into(),
            Refusal::NoSuchCorner => "there is no such corner".into(),
            Refusal::PlaceOutOfRange => "the new place is out of range".into(),
            Refusal::TableTooShort(table) => {
                format!("the library finds the table of {} too short", table.name()).into()
            }
            Refusal::PlanOutOfRange => {
                "the plan has a corner out of range, so none can be moved".into()
            }
            Refusal::UndoFull => "there is no room to record the move".into(),
            Refusal::NothingToUndo => "there is nothing to undo".into(),
            Refusal::Unsound => "the tables are not such as preparing and corrections leave".into(),
            Refusal::OffGrammar(place) => format!(
                "at byte {place}, counted from 0, the text leaves the grammar of Well-Known Text"
            )
            .into(),
            Refusal::Unclosed => UNCLOSED.into(),
        }
    }

    /// What to do about it.
    fn remedy(self) -> Cow<'static, str> {
        match self {
            Refusal::TextTooLong => SHORTEN.into(),
            Refusal::BadLine(_) => MEND_LINE.into(),
            Refusal::Uneven => MEND_COUNTS.into(),
            Refusal::TooMany => format!(
                "there may be {MAX_CORNERS} corners, {MAX_RINGS} rings, {MAX_POLYGONS} polygons, {MAX_POINTS} listed points and {MAX_UNDO} \
                 moves to undo: split what has more"
            )
            .into(),
            Refusal::NoSuchCorner => "give its number in the plan's order, from 0".into(),
            Refusal::PlaceOutOfRange => {
                format!("both its coordinates have to lie within {MAX_COORD}, either sign").into()
            }
            Refusal::TableTooShort(_) => BUILD_BOTH.into(),
            Refusal::PlanOutOfRange => format!(
                "prepare it again with every coordinate within {MAX_COORD}, either sign"
            )
            .into(),
            Refusal::UndoFull => format!(
                "undo one, or prepare the plan with room for more moves ({MAX_UNDO} at most)"
            )
            .into(),
            Refusal::NothingToUndo => {
                "every move has been taken back, so leave the plan as it is".into()
            }
            Refusal::Unsound => "prepare the plan again".into(),
            Refusal::OffGrammar(_) => MEND_WKT.into(),
            Refusal::Unclosed => "end each ring with its first position, or write a list whose rings all have corners".into(),
        }
    }

    /// The refusal of a number that the library answers, with the line that 2 names, the table that 11 names or the place that 21 names.
    pub(crate) fn of_number(number: usize, detail: usize) -> Refusal {
        match number {
            1 => Refusal::TextTooLong,
            2 => Refusal::BadLine(detail),
            3 => Refusal::Uneven,
            4 => Refusal::TooMany,
            5 => Refusal::NoSuchCorner,
            6 => Refusal::PlaceOutOfRange,
            11 => Refusal::TableTooShort(Table::of_number(detail)),
            12 => Refusal::PlanOutOfRange,
            13 => Refusal::UndoFull,
            14 => Refusal::NothingToUndo,
            15 => Refusal::Unsound,
            21 => Refusal::OffGrammar(detail),
            22 => Refusal::Unclosed,
            other => {
                panic!("the library linked is not that of this crate: it refused with {other}")
            }
        }
    }
}

impl Table {
    fn of_number(number: usize) -> Table {
        match number {
            1 => Table::Corners,
            2 => Table::Rings,
            3 => Table::Polygons,
            4 => Table::Nodes,
            5 => Table::Edges,
            6 => Table::Output,
            other => panic!("the library linked is not that of this crate: it names table {other}"),
        }
    }

    fn name(self) -> &'static str {
        match self {
            Table::Corners => "corners",
            Table::Rings => "rings",
            Table::Polygons => "polygons",
            Table::Nodes => "nodes",
            Table::Edges => "edges",
            Table::Output => "output bytes",
        }
    }
}

/// The number, what is wrong, and what to do about it.
impl fmt::Display for Refusal {
    fn fmt(&self, formatter: &mut fmt::Formatter<'_>) -> fmt::Result {
        formatter.write_str(&self.message(&self.wrong()))
    }
}

impl Error for Refusal {}

#[cfg(test)]
mod tests {
    use super::{Refusal, Table};
    use std::panic::catch_unwind;

    /// Document 01's order of the tables, in which refusal 11 names the first that is too short, and the output, which is the sixth.
    const TABLES: [Table; 6] = [
        Table::Corners,
        Table::Rings,
        Table::Polygons,
        Table::Nodes,
        Table::Edges,
        Table::Output,
    ];

    #[test]
    fn tables_are_numbered_in_the_order_in_which_they_are_looked_at() {
        for (number, table) in (1..).zip(TABLES) {
            assert_eq!(Table::of_number(number), table);
            let refusal = Refusal::of_number(11, number);
            assert_eq!(refusal, Refusal::TableTooShort(table));
        }
    }

    #[test]
    fn no_other_number_is_taken_for_a_table() {
        for number in [0, 7, usize::MAX] {
            let answer = catch_unwind(|| Table::of_number(number));
            let said = answer.expect_err("there is no such table");
            let said = said.downcast::<String>().expect("a message");
            assert!(said.ends_with(&format!("it names table {number}")));
        }
    }
}
