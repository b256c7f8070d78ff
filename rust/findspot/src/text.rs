//! Plans as text: the library reads them.

use crate::library::{self, Reading};
use crate::location::Location;
use crate::plan::{Kind, Plan};
use crate::point::Point;
use crate::refusal::Refusal;
use crate::{MAX_TEXT, prepared};

/// A call of the library that reads the plan of a text into tables.
type Reader = fn(&[u8], &mut [Point], &mut [usize], &mut [usize]) -> Reading;

/// The fewest bytes that each corner, ring and polygon takes in a text.
pub(crate) struct Fewest {
    pub corner: usize,
    pub ring: usize,
    pub polygon: usize,
}

/// The shortest lines that add a corner, open a ring and open a polygon.
const FEWEST: Fewest = Fewest {
    corner: b"at\t0\t0\n".len(),
    ring: b"hole\n".len(),
    polygon: b"outer\n".len(),
};

/// Where a point lies in the plan that a text holds (see [`Plan::from_text`]), ring by ring, in one call that prepares nothing.
///
/// A point out of range, and any point of a plan with a corner out of range, is outside. It takes about 342 KB of stack.
///
/// ```
/// use findspot::{Location, Point, Refusal, locate_text};
///
/// let text = b"plan\ttree\nnode\nat\t0\t0\nat\t8\t0\nat\t0\t8\n";
/// assert_eq!(locate_text(text, Point::new(1, 1)), Ok(Location::Inside));
/// assert_eq!(locate_text(b"plan\tforest\n", Point::new(1, 1)), Err(Refusal::BadLine(1)));
/// ```
///
/// # Errors
///
/// [`Refusal::TextTooLong`] (1), else [`Refusal::BadLine`] (2) with the first line that breaks the format, whatever the point is.
pub fn locate_text(text: &[u8], point: Point) -> Result<Location, Refusal> {
    match library::locate_text(text, point) {
        -2 | -1 => Err(refusal_of(text)),
        place => Ok(prepared::location(place)),
    }
}

/// A line of a text, counted from 1 and without its line feed: empty where there is no such line. An unended last piece is a line.
///
/// ```
/// use findspot::{Plan, Refusal, line};
///
/// let text = b"plan\nouter\nat\t0\n";
/// let Err(Refusal::BadLine(number)) = Plan::from_text(text) else {
///     panic!("a corner has two numbers");
/// };
/// assert_eq!(line(text, number), b"at\t0");
/// ```
pub fn line(text: &[u8], number: usize) -> &[u8] {
    let span = library::line(text, number);
    &text[span.offset..span.offset + span.length]
}

/// What reading a text answers where no table is lent. A text is judged before a table is looked at, so its own refusals come as ever.
pub(crate) fn judge_with(reader: Reader, text: &[u8]) -> Reading {
    reader(text, &mut [], &mut [], &mut [])
}

/// The refusal of a text that holds no plan.
fn refusal_of(text: &[u8]) -> Refusal {
    let reading = judge_with(library::read_plan, text);
    Refusal::of_number(reading.refusal, reading.detail)
}

/// The plan that a text holds.
pub(crate) fn read(text: &[u8]) -> Result<Plan, Refusal> {
    read_with(library::read_plan, &FEWEST, text)
}

/// The plan that a text holds, read into tables that have room for what so many bytes can hold; the plan keeps no more room than it fills. A text
/// above the ceiling is refused before they are looked at, however long it is.
pub(crate) fn read_with(reader: Reader, fewest: &Fewest, text: &[u8]) -> Result<Plan, Refusal> {
    let bytes = text.len().min(MAX_TEXT);
    let mut corners = vec![Point::default(); bytes / fewest.corner];
    let mut lengths = vec![0; bytes / fewest.ring];
    let mut counts = vec![0; bytes / fewest.polygon];
    let reading = reader(text, &mut corners, &mut lengths, &mut counts);
    if reading.refusal != 0 {
        return Err(Refusal::of_number(reading.refusal, reading.detail));
    }
    let kind = Kind::of_number(reading.kind);
    Ok(Plan::from_tables(
        kind,
        cut(corners, reading.corners),
        cut(lengths, reading.rings),
        cut(counts, reading.polygons),
    ))
}

/// The beginning of a list, without room for the rest.
pub(crate) fn cut<T>(mut list: Vec<T>, length: usize) -> Vec<T> {
    list.truncate(length);
    list.shrink_to_fit();
    list
}

/// Whether a text's header opens a list: the library reads the header alone, so that what a header means is said nowhere else.
fn is_list(text: &[u8]) -> bool {
    let header = library::line(text, 1);
    let end = text.len().min(header.length + 1);
    let reading = judge_with(library::read_plan, &text[..end]);
    reading.refusal == 0 && Kind::of_number(reading.kind) == Kind::List
}

/// What breaks the format in the first line that does, as far as the line and the header tell. It is there for people to read: the library
/// alone says which line it is.
pub(crate) fn fault(text: &[u8], number: usize) -> &'static str {
    let span = library::line(text, number);
    let bytes = line(text, number);
    if text.is_empty() {
        return "the text is empty";
    }
    if span.offset + span.length == text.len() {
        return "it is not ended by a line feed";
    }
    if bytes.contains(&b'\r') {
        return "it has a carriage return";
    }
    if bytes.contains(&b' ') {
        return "it has a space where a tab is due";
    }
    let fields: Vec<&[u8]> = bytes.split(|&byte| byte == b'\t').collect();
    match fields[..] {
        [b""] => "it is empty",
        [b"plan", ..] if number == 1 => "`plan` goes alone or with `list` or `tree`",
        [b"plan", ..] => "there is one header, the first line",
        _ if number == 1 => "the first line has to be the header `plan`",
        [b"at", _, _] if number == 2 => "a corner needs a ring before it",
        [b"at", _, _] => "a number is not decimal, of 64 bits and in its shortest form",
        [b"at", ..] => "`at` goes with x and y",
        [b"hole"] if is_list(text) => "a hole needs an `outer` before it",
        [b"outer" | b"hole" | b"node"] => "a list has `outer` and `hole`, a tree `node`",
        [b"outer" | b"hole" | b"node", ..] => "the word that opens a ring goes alone",
        _ => "it starts with none of the words `outer`, `hole`, `node` and `at`",
    }
}
