//! Reads plan text as item 10 of document 01 puts it.

use plans::plan::{Plan, Polygon, Ring};

/// The bytes that a text may have.
pub const LONGEST: usize = 65_536;

/// Why a text is not a plan.
#[derive(Debug, PartialEq, Eq)]
pub enum Refusal {
    /// Refusal 1: the text is too long.
    TooLong,
    /// Refusal 2: this line, counted from 1, is the first that breaks item 10.
    Line(usize),
}

/// The plan that a text holds.
pub fn read(text: &[u8]) -> Result<Plan, Refusal> {
    if text.len() > LONGEST {
        return Err(Refusal::TooLong);
    }
    let pieces: Vec<&[u8]> = text.split(|&byte| byte == b'\n').collect();
    let (unended, lines) = pieces.split_last().expect("a split gives a piece");
    let mut draft = None;
    for (number, line) in (1..).zip(lines) {
        let fields: Vec<&[u8]> = line.split(|&byte| byte == b'\t').collect();
        draft = Some(after_line(draft, &fields).ok_or(Refusal::Line(number))?);
    }
    match draft {
        Some(draft) if unended.is_empty() => Ok(draft.plan()),
        _ => Err(Refusal::Line(pieces.len())),
    }
}

/// What was read so far, the open ring last.
enum Draft {
    List(Vec<Polygon>),
    Tree(Vec<Ring>),
}

/// What is read after one more line, or nothing if the line breaks item 10.
fn after_line(draft: Option<Draft>, fields: &[&[u8]]) -> Option<Draft> {
    match draft {
        None => header(fields),
        Some(mut draft) => {
            draft.take(fields)?;
            Some(draft)
        }
    }
}

fn header(fields: &[&[u8]]) -> Option<Draft> {
    match fields {
        [b"plan"] | [b"plan", b"list"] => Some(Draft::List(Vec::new())),
        [b"plan", b"tree"] => Some(Draft::Tree(Vec::new())),
        _ => None,
    }
}

impl Draft {
    /// Takes a line after the first.
    fn take(&mut self, fields: &[&[u8]]) -> Option<()> {
        match (self, fields) {
            (Draft::List(polygons), [b"outer"]) => polygons.push(vec![Ring::new()]),
            (Draft::List(polygons), [b"hole"]) => polygons.last_mut()?.push(Ring::new()),
            (Draft::Tree(rings), [b"node"]) => rings.push(Ring::new()),
            (draft, [b"at", x, y]) => draft.open_ring()?.push((number(x)?, number(y)?)),
            _ => return None,
        }
        Some(())
    }

    fn open_ring(&mut self) -> Option<&mut Ring> {
        match self {
            Draft::List(polygons) => polygons.last_mut()?.last_mut(),
            Draft::Tree(rings) => rings.last_mut(),
        }
    }

    fn plan(&self) -> Plan {
        match self {
            Draft::List(polygons) => Plan::list(polygons),
            Draft::Tree(rings) => Plan::tree(rings),
        }
    }
}

/// The 64-bit number that a field is, in its one decimal form.
pub fn number(field: &[u8]) -> Option<i64> {
    let field = str::from_utf8(field).ok()?;
    let number: i64 = field.parse().ok()?;
    (number.to_string() == field).then_some(number)
}
