//! Writes lists of polygons as Well-Known Text: as document 02's R-1 has it written, and in other spellings that it reads.

use plans::plan::{Kind, Plan, Point, Polygon, Ring};
use plans::random::Random;

/// The text of a list plan that has no empty ring, as it is to be written.
pub fn write(plan: &Plan) -> Vec<u8> {
    joined(&multipolygon(members(plan)), written)
}

/// The plan of all rings that have a corner, as a list: a ring of a tree is a polygon of its own, and a polygon without a ring is left out.
pub fn writable(plan: &Plan) -> Plan {
    let grouped = match plan.kind {
        Kind::List => plan.polygons(),
        Kind::Tree => plan.rings().into_iter().map(|ring| vec![ring]).collect(),
    };
    let filled = |polygon: Polygon| -> Polygon {
        let rings = polygon.into_iter();
        rings.filter(|ring| !ring.is_empty()).collect()
    };
    let polygons = grouped.into_iter().map(filled);
    let polygons: Vec<Polygon> = polygons.filter(|rings| !rings.is_empty()).collect();
    Plan::list(&polygons)
}

/// Texts of a list plan that has no empty ring, all of which are to be read as it: as it is written, which is how GEOS, JTS and shapely space
/// it; without a space that is not needed, as PostGIS has it; with `EMPTY` members; as a `POLYGON` where it can be one; and with any number of
/// spaces wherever they are free.
pub fn spellings(random: &mut Random, plan: &Plan) -> Vec<Vec<u8>> {
    let plain = multipolygon(members(plan));
    let padded = multipolygon(with_empty(random, members(plan)));
    let mut all = vec![
        joined(&plain, written),
        joined(&plain, needed),
        joined(&padded, written),
        loose(random, &padded),
    ];
    if let Some(polygon) = as_polygon(plan) {
        all.push(joined(&polygon, written));
        all.push(joined(&polygon, needed));
        all.push(loose(random, &polygon));
    }
    all
}

/// A word, a number, a bracket or a comma.
type Token = String;

fn token(text: &str) -> Vec<Token> {
    vec![text.to_string()]
}

/// The members of a plan's `MULTIPOLYGON`.
fn members(plan: &Plan) -> Vec<Vec<Token>> {
    plan.polygons().iter().map(|rings| polygon(rings)).collect()
}

fn polygon(rings: &[Ring]) -> Vec<Token> {
    bracketed(rings.iter().map(|ring| closed(ring)).collect())
}

/// A ring's positions, its first corner added at the end.
fn closed(ring: &[Point]) -> Vec<Token> {
    let position = |&(x, y): &Point| vec![x.to_string(), y.to_string()];
    let positions = ring.iter().chain(ring.first());
    bracketed(positions.map(position).collect())
}

fn bracketed(items: Vec<Vec<Token>>) -> Vec<Token> {
    [token("("), items.join(&token(",")[..]), token(")")].concat()
}

fn multipolygon(members: Vec<Vec<Token>>) -> Vec<Token> {
    let rest = match members.is_empty() {
        true => token("EMPTY"),
        false => bracketed(members),
    };
    [token("MULTIPOLYGON"), rest].concat()
}

/// The tokens of a `POLYGON`, for a plan of one polygon or none.
fn as_polygon(plan: &Plan) -> Option<Vec<Token>> {
    let rest = match plan.polygons().as_slice() {
        [] => token("EMPTY"),
        [rings] => polygon(rings),
        _ => return None,
    };
    Some([token("POLYGON"), rest].concat())
}

/// The members with an `EMPTY` one before some of them, and one at the end.
fn with_empty(random: &mut Random, members: Vec<Vec<Token>>) -> Vec<Vec<Token>> {
    let mut padded = Vec::new();
    for member in members {
        if random.one_in(2) {
            padded.push(token("EMPTY"));
        }
        padded.push(member);
    }
    padded.push(token("EMPTY"));
    padded
}

/// The tokens in a row, with so many spaces between two of them.
fn joined(tokens: &[Token], mut spaces: impl FnMut(&str, &str) -> usize) -> Vec<u8> {
    let mut text = tokens[0].clone();
    for pair in tokens.windows(2) {
        text.push_str(&" ".repeat(spaces(&pair[0], &pair[1])));
        text.push_str(&pair[1]);
    }
    text.into_bytes()
}

/// one space after the first word, after each comma and between numbers, and no other.
fn written(before: &str, after: &str) -> usize {
    let is_word = before.ends_with("POLYGON");
    let is_number = |token: &str| token.ends_with(|c: char| c.is_ascii_digit());
    usize::from(is_word || before == "," || is_number(before) && is_number(after))
}

/// spaces are free round brackets and commas, and one or more part the numbers of a pair and a word from `EMPTY`.
fn needed(before: &str, after: &str) -> usize {
    usize::from(!is_mark(before) && !is_mark(after))
}

fn is_mark(token: &str) -> bool {
    ["(", ",", ")"].contains(&token)
}

/// Any number of spaces wherever they are free, behind a last bracket too.
fn loose(random: &mut Random, tokens: &[Token]) -> Vec<u8> {
    let mut some = || random.pick(&[0, 0, 0, 1, 1, 2, 5]);
    let mut text = joined(tokens, |before, after| needed(before, after) + some());
    if text.ends_with(b")") {
        text.resize(text.len() + some(), b' ');
    }
    text
}
