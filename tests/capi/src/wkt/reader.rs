//! Reads Well-Known Text as document 02's R-1 puts it: the grammar stands here as a value, and what a text is to it is found by a search
//! through all the ways in which the bytes may be read.

use crate::reader::{LONGEST, number};
use plans::plan::{Plan, Point, Polygon, Ring};
use std::iter::Peekable;
use std::sync::LazyLock;
use std::vec::IntoIter;

/// Why a text is not a plan.
#[derive(Clone, Copy, Debug, PartialEq, Eq)]
pub enum Refusal {
    /// Refusal 1: the text is too long.
    TooLong,
    /// Refusal 21: the place, from 0, of the first byte up to which no text of the grammar begins so, or the length.
    OffGrammar(usize),
    /// Refusal 22: a ring whose ends differ, or of fewer than two positions.
    Unclosed,
}

/// The plan that a text holds.
pub fn read(text: &[u8]) -> Result<Plan, Refusal> {
    if text.len() > LONGEST {
        return Err(Refusal::TooLong);
    }
    if !is_text(text) {
        return Err(Refusal::OffGrammar(place_off(text)));
    }
    opened(text)
}

/// The plan that a text of the grammar holds, the last position of each ring left out.
pub fn opened(text: &[u8]) -> Result<Plan, Refusal> {
    let mut polygons = polygons(text);
    let rings = || polygons.iter().flatten();
    if rings().any(|ring| ring.len() < 2 || ring.first() != ring.last()) {
        return Err(Refusal::Unclosed);
    }
    for ring in polygons.iter_mut().flatten() {
        ring.pop();
    }
    Ok(Plan::list(&polygons))
}

/// Whether the bytes are a text of the grammar.
pub fn is_text(text: &[u8]) -> bool {
    Search::through(text).whole
}

/// Whether some text of the grammar, of whatever length, begins with the bytes.
pub fn begins(bytes: &[u8]) -> bool {
    let found = Search::through(bytes);
    found.whole || found.cut
}

/// The place of the first byte up to which no text of the grammar begins so, or the length if there is none. What begins no text begins none
/// with more bytes, so that the place is found by halving.
fn place_off(text: &[u8]) -> usize {
    if begins(text) {
        return text.len();
    }
    let ends: Vec<usize> = (1..=text.len()).collect();
    ends.partition_point(|&end| begins(&text[..end]))
}

/// A form that bytes may have. Each has some text, so that what ends in the middle of one can be completed.
#[derive(Clone)]
enum Form {
    Bytes(&'static [u8]),
    /// Spaces, or none.
    Spaces,
    /// A number of item 10.
    Number,
    /// All of these, one after another.
    Row(Vec<Form>),
    /// Any one of these.
    OneOf(Vec<Form>),
    /// This, any number of times or not at all.
    Repeated(Box<Form>),
}

/// The grammar.
static TEXT: LazyLock<Form> = LazyLock::new(|| {
    let polygon = || bracketed(ring());
    let member = Form::OneOf(vec![polygon(), EMPTY]);
    let empty = || Form::Row(vec![apart(), EMPTY]);
    let after = |word, forms: Vec<Form>| Form::Row(vec![Form::Bytes(word), Form::OneOf(forms)]);
    Form::OneOf(vec![
        after(b"POLYGON", vec![polygon(), empty()]),
        after(b"MULTIPOLYGON", vec![bracketed(member), empty()]),
    ])
});

const EMPTY: Form = Form::Bytes(b"EMPTY");

/// A ring is never `EMPTY`.
fn ring() -> Form {
    bracketed(Form::Row(vec![Form::Number, apart(), Form::Number]))
}

/// One of a sort at least, in brackets and parted by commas.
fn bracketed(item: Form) -> Form {
    let more = Form::Row(vec![mark(b","), item.clone()]);
    let more = Form::Repeated(Box::new(more));
    Form::Row(vec![mark(b"("), item, more, mark(b")")])
}

/// A bracket or comma: spaces are free round it.
fn mark(mark: &'static [u8]) -> Form {
    Form::Row(vec![Form::Spaces, Form::Bytes(mark), Form::Spaces])
}

/// One space or more.
fn apart() -> Form {
    Form::Row(vec![Form::Bytes(b" "), Form::Spaces])
}

/// Places between the bytes of a text, rising.
type Places = Vec<usize>;

/// All ways to read bytes as the grammar's form at once.
struct Search<'a> {
    bytes: &'a [u8],
    /// Whether a form is cut off by the end of the bytes, and goes on behind it in some text.
    cut: bool,
    /// Whether the bytes are a whole text.
    whole: bool,
}

impl Search<'_> {
    fn through(bytes: &[u8]) -> Search<'_> {
        let mut search = Search {
            bytes,
            cut: false,
            whole: false,
        };
        let ends = search.ends(&TEXT, vec![0]);
        search.whole = ends.contains(&bytes.len());
        search
    }

    /// Every place at which a form can end that starts at one of these.
    fn ends(&mut self, form: &Form, starts: Places) -> Places {
        match form {
            Form::Bytes(bytes) => self.bytes_ends(bytes, starts),
            Form::Spaces => self.spaces_ends(starts),
            Form::Number => self.number_ends(starts),
            Form::Row(forms) => forms
                .iter()
                .fold(starts, |starts, form| self.ends(form, starts)),
            Form::OneOf(forms) => {
                let each = forms.iter().map(|form| self.ends(form, starts.clone()));
                rising(each.flatten().collect())
            }
            Form::Repeated(form) => self.repeated_ends(form, starts),
        }
    }

    fn bytes_ends(&mut self, bytes: &[u8], starts: Places) -> Places {
        let mut ends = Places::new();
        for start in starts {
            let rest = &self.bytes[start..];
            if rest.starts_with(bytes) {
                ends.push(start + bytes.len());
            } else {
                self.cut |= bytes.starts_with(rest);
            }
        }
        ends
    }

    /// Spaces may end before each of their bytes. Those from a later start are among those from an earlier one, and gone over once.
    fn spaces_ends(&self, starts: Places) -> Places {
        let mut ends = Places::new();
        for start in starts {
            if ends.last().is_none_or(|&last| last < start) {
                let spaces = self.bytes[start..].iter().take_while(|&&byte| byte == b' ');
                ends.extend(start..=start + spaces.count());
            }
        }
        ends
    }

    /// A number ends where the bytes so far are one. It is cut off where all the rest of the bytes, with a digit more, is one.
    fn number_ends(&mut self, starts: Places) -> Places {
        let mut ends = Places::new();
        for start in starts {
            let rest = &self.bytes[start..];
            let in_number = |byte: &&u8| matches!(byte, b'-' | b'0'..=b'9');
            let longest = rest.iter().take(LONGEST_NUMBER).take_while(in_number);
            let longest = longest.count();
            let lengths = (1..=longest).filter(|&length| number(&rest[..length]).is_some());
            ends.extend(lengths.map(|length| start + length));
            if longest == rest.len() {
                let longer = |digit| [rest, &[digit]].concat();
                self.cut |= (b'0'..=b'9').any(|digit| number(&longer(digit)).is_some());
            }
        }
        rising(ends)
    }

    fn repeated_ends(&mut self, form: &Form, starts: Places) -> Places {
        let mut ends = starts.clone();
        let mut last = starts;
        while !last.is_empty() {
            last = self.ends(form, last);
            ends.extend(&last);
        }
        rising(ends)
    }
}

/// The bytes of the longest number of 64 bits, which has a minus and 19 digits.
const LONGEST_NUMBER: usize = 20;

fn rising(mut places: Places) -> Places {
    places.sort_unstable();
    places.dedup();
    places
}

/// The words, numbers and marks of a text of the grammar, in order.
type Tokens<'a> = Peekable<IntoIter<&'a str>>;

/// The polygons of a text of the grammar, each ring with all its positions.
fn polygons(text: &[u8]) -> Vec<Polygon> {
    let text = str::from_utf8(text).expect("a text of the grammar is ASCII");
    let marks = ["(", ",", ")"];
    let apart = |text: String, mark| text.replace(mark, &format!(" {mark} "));
    let apart = marks.into_iter().fold(text.to_string(), apart);
    let tokens: Vec<&str> = apart.split(' ').filter(|token| !token.is_empty()).collect();
    let mut tokens = tokens.into_iter().peekable();
    let is_polygon = tokens.next() == Some("POLYGON");
    if tokens.peek() == Some(&"EMPTY") {
        Vec::new()
    } else if is_polygon {
        vec![polygon(&mut tokens)]
    } else {
        items(&mut tokens, member).into_iter().flatten().collect()
    }
}

/// What brackets hold.
fn items<T>(tokens: &mut Tokens, item: fn(&mut Tokens) -> T) -> Vec<T> {
    tokens.next();
    let mut items = vec![item(tokens)];
    while tokens.next() == Some(",") {
        items.push(item(tokens));
    }
    items
}

/// An `EMPTY` member is no polygon.
fn member(tokens: &mut Tokens) -> Option<Polygon> {
    match tokens.next_if_eq(&"EMPTY") {
        Some(_) => None,
        None => Some(polygon(tokens)),
    }
}

fn polygon(tokens: &mut Tokens) -> Polygon {
    let ring: fn(&mut Tokens) -> Ring = |tokens| items(tokens, position);
    items(tokens, ring)
}

fn position(tokens: &mut Tokens) -> Point {
    let mut next = || tokens.next().and_then(|token| number(token.as_bytes()));
    let (x, y) = (next(), next());
    x.zip(y).expect("a position of the grammar has two numbers")
}
