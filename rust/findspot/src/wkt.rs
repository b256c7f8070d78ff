//! Plans as Well-Known Text: the library reads and writes them, and alone knows the grammar.

use crate::plan::{Kind, Plan};
use crate::point::Point;
use crate::refusal::Refusal;
use crate::text::{self, Fewest};
use crate::{MAX_TEXT, library};

/// The least that each corner, ring and polygon adds to a text.
const FEWEST: Fewest = Fewest {
    corner: b",0 0".len(),
    ring: b",(0 0,0 0)".len(),
    polygon: b",((0 0,0 0))".len(),
};

/// The plan that a Well-Known Text holds.
pub(crate) fn read(text: &[u8]) -> Result<Plan, Refusal> {
    text::read_with(library::read_wkt, &FEWEST, text)
}

/// The plan of these tables as Well-Known Text, for which it has to be a list.
pub(crate) fn write(
    kind: Kind,
    corners: &[Point],
    lengths: &[usize],
    counts: &[usize],
) -> Result<String, Refusal> {
    let mut output = vec![0; MAX_TEXT];
    let writing = library::write_wkt(kind.number(), corners, lengths, counts, &mut output);
    if writing.refusal != 0 {
        return Err(Refusal::of_number(writing.refusal, writing.table));
    }
    let text = text::cut(output, writing.length);
    Ok(String::from_utf8(text).expect("Well-Known Text is ASCII"))
}

/// What is wrong at the place at which a text leaves the grammar: what stands there, and what may.
pub(crate) fn fault(text: &[u8], place: usize) -> String {
    let found = match text.get(place) {
        Some(&byte) => format!("{} stands there", named(byte)),
        None => "it ends there".to_string(),
    };
    let due = due(text.get(..place).unwrap_or(text));
    if due.is_empty() {
        return found;
    }
    format!("{found}, where {} is due", due.join(" or "))
}

/// What may stand behind the beginning of a text; nothing where the text would then be too long. The library is asked of each byte that can be
/// printed, so that the grammar is said nowhere else.
fn due(begun: &[u8]) -> Vec<String> {
    if begun.len() >= MAX_TEXT {
        return Vec::new();
    }
    let mut longer = [begun, b" "].concat();
    let fits = |&byte: &u8| {
        longer[begun.len()] = byte;
        is_begun(&longer)
    };
    let (digits, others): (Vec<u8>, Vec<u8>) =
        (b' '..=b'~').filter(fits).partition(u8::is_ascii_digit);
    let mut due: Vec<String> = others.into_iter().map(named).collect();
    if let (Some(&first), Some(&last)) = (digits.first(), digits.last()) {
        due.push(format!(
            "a digit from {} to {}",
            char::from(first),
            char::from(last)
        ));
    }
    if is_whole(begun) {
        due.push("its end".to_string());
    }
    due
}

/// Whether a text of the grammar begins so.
fn is_begun(text: &[u8]) -> bool {
    leaves_at(text).is_none_or(|place| place == text.len())
}

/// Whether a text is one of the grammar.
fn is_whole(text: &[u8]) -> bool {
    leaves_at(text).is_none()
}

/// The place at which a text leaves the grammar, or none where it is one of the grammar.
fn leaves_at(text: &[u8]) -> Option<usize> {
    let reading = text::judge_with(library::read_wkt, text);
    (reading.refusal == 21).then_some(reading.detail)
}

/// A byte as it is called in a message.
fn named(byte: u8) -> String {
    match byte {
        b' ' => "a space".to_string(),
        _ => format!("`{}`", byte.escape_ascii()),
    }
}
