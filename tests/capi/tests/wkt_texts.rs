//! Single Well-Known Texts: what document 02's R-1 refuses and what it reads, one reason at a time, each with its number and place.

use capi::lent::Trials;
use capi::reader::LONGEST;
use capi::reading::Judged;
use capi::wkt::{judged, read_wkt};
use plans::plan::{Plan, Point, Polygon};

/// Texts off the grammar, with the place of the first byte up to which no text begins so.
const OFF_GRAMMAR: &[(&[u8], u64)] = &[
    // Texts that only end early get their length.
    (b"", 0),
    (b"P", 1),
    (b"POLYGON", 7),
    (b"POLYGON ", 8),
    (b"POLYGON EMPT", 12),
    (b"POLYGON(", 8),
    (b"POLYGON((", 9),
    (b"POLYGON((-", 10),
    (b"POLYGON((0", 10),
    (b"POLYGON((0 ", 11),
    (b"POLYGON((0 0", 12),
    (b"POLYGON((0 0 ", 13),
    (b"POLYGON((0 0,", 13),
    (b"POLYGON((0 0,0 0)", 17),
    (b"POLYGON((0 0,0 0),", 18),
    (b"POLYGON((9223372036854775807 0", 30),
    (b"POLYGON((-9223372036854775808 0", 31),
    (b"MULTIPOLYGON", 12),
    (b"MULTIPOLYGON(E", 14),
    (b"MULTIPOLYGON(EMPTY", 18),
    (b"MULTIPOLYGON(EMPTY,", 19),
    (b"MULTIPOLYGON(((0 0,0 0))", 24),
    // Spaces are byte 32 alone, and free round brackets and commas alone.
    (b" POLYGON EMPTY", 0),
    (b"POLYGON EMPTY ", 13),
    (b"POLYGON EMPTY\n", 13),
    (b"MULTIPOLYGON EMPTY ", 18),
    (b"POLYGON\tEMPTY", 7),
    (b"POLYGON\n((0 0,0 0))", 7),
    (b"POLYGON((0\t0,0 0))", 10),
    (b"POLYGON((0 0,\r\n0 0))", 13),
    (b"POLYGON((0 0,0 0))\n", 18),
    (b"POLYGON((0 0,0 0))\0", 18),
    (b"POLYGON\xc2\xa0EMPTY", 7),
    (b"POLY GON EMPTY", 4),
    (b"POLYGON EM PTY", 10),
    (b"POLYGON((- 1 0", 10),
    (b"POLYGON((1 0 0", 13),
    // Words are capitals, and there are three.
    (b"polygon EMPTY", 0),
    (b"Polygon EMPTY", 1),
    (b"POLYGON empty", 8),
    (b"POLYGONEMPTY", 7),
    (b"MULTIPOLYGONEMPTY", 12),
    (b"POLYGON EMPTYEMPTY", 13),
    (b"POLYGON Z EMPTY", 8),
    (b"POLYGON Z ((0 0 0,0 0 0))", 8),
    (b"POLYGONZ((0 0 0,0 0 0))", 7),
    (b"MULTIPOLYGON ZM (((0 0 0 0,0 0 0 0)))", 13),
    (b"SRID=4326;POLYGON EMPTY", 0),
    (b"POINT(0 0)", 2),
    (b"POLYHEDRALSURFACE EMPTY", 4),
    (b"MULTIPOINT EMPTY", 7),
    (b"MULTILINESTRING EMPTY", 5),
    (b"GEOMETRYCOLLECTION EMPTY", 0),
    (b"\xef\xbb\xbfPOLYGON EMPTY", 0),
    // Brackets hold one thing at least, and a ring is never EMPTY.
    (b"POLYGON ()", 9),
    (b"POLYGON (())", 10),
    (b"POLYGON (EMPTY", 9),
    (b"POLYGON ((0 0,0 0),EMPTY)", 19),
    (b"MULTIPOLYGON()", 13),
    (b"MULTIPOLYGON(())", 14),
    (b"MULTIPOLYGON((()))", 15),
    (b"MULTIPOLYGON((EMPTY))", 14),
    (b"MULTIPOLYGON(EMPTY(", 18),
    (b"MULTIPOLYGON(EMPTY EMPTY)", 19),
    (b"MULTIPOLYGON(,EMPTY)", 13),
    (b"MULTIPOLYGON(EMPTY,)", 19),
    (b"MULTIPOLYGON((EMPTY,(0 0,0 0)))", 14),
    // Brackets and commas in the wrong place.
    (b"POLYGON)", 7),
    (b"POLYGON,", 7),
    (b"POLYGON(0 0,0 0)", 8),
    (b"POLYGON(((0 0,0 0)))", 9),
    (b"MULTIPOLYGON(0 0,0 0)", 13),
    (b"MULTIPOLYGON((0 0,0 0))", 14),
    (b"MULTIPOLYGON((((0 0,0 0))))", 15),
    (b"POLYGON((0,0))", 10),
    (b"POLYGON((,0 0))", 9),
    (b"POLYGON((0 ,0))", 11),
    (b"POLYGON((0 0,,0 0))", 13),
    (b"POLYGON((0 0,))", 13),
    (b"POLYGON((0 0,0 0),)", 18),
    (b"POLYGON((0 0) (0 0))", 14),
    (b"POLYGON((0 0,0 0))(", 18),
    (b"POLYGON((0 0,0 0)))", 18),
    (b"POLYGON((0 0,0 0)),", 18),
    (b"POLYGON((0 0,0 0));", 18),
    (b"POLYGON((0 0,0 0)) POLYGON", 19),
    (b"MULTIPOLYGON(((0 0,0 0)) ((0 0,0 0)))", 25),
    // Numbers are item 10's, and two a position.
    (b"POLYGON((00", 10),
    (b"POLYGON((01", 10),
    (b"POLYGON((-0", 10),
    (b"POLYGON((-00", 10),
    (b"POLYGON((--1", 10),
    (b"POLYGON((+1", 9),
    (b"POLYGON((1-", 10),
    (b"POLYGON((.5", 9),
    (b"POLYGON ((0.0", 11),
    (b"POLYGON ((1e3 0", 11),
    (b"POLYGON((0x1", 10),
    (b"POLYGON((nan", 9),
    (b"POLYGON((9223372036854775808", 27),
    (b"POLYGON((-9223372036854775809", 28),
    (b"POLYGON((9223372036854775810", 27),
    (b"POLYGON((10000000000000000000", 28),
    (b"POLYGON((18446744073709551616", 28),
    (b"POLYGON((0 9223372036854775808,0 0))", 29),
    (b"POLYGON((0 -9223372036854775809,0 0))", 30),
    (b"POLYGON((0 0,0 00", 16),
    (b"POLYGON ((0 0 0", 14),
    // 21 is about the whole text, and a ring that is not closed comes after it.
    (b"POLYGON((0 0, 1 1), (", 21),
    (b"POLYGON((0 0))x", 14),
    (b"MULTIPOLYGON(((0 0)),((1 1,2 2)),", 33),
];

/// Texts of the grammar with a ring whose ends differ or of one position.
const UNCLOSED: &[&str] = &[
    "POLYGON((0 0))",
    "POLYGON ((0 0, 1 1))",
    "POLYGON ((0 0, 10 0, 10 10, 0 10))",
    "POLYGON ((0 0, 10 0, 10 10, 0 1))",
    "POLYGON ((0 0, 10 0, 10 10, 1 0))",
    "POLYGON ((0 0, 0 0, 1 1))",
    "POLYGON ((0 0, 10 0, 0 0), (5 5))",
    "POLYGON ((5 5), (0 0, 10 0, 0 0))",
    "POLYGON ((0 0, 1 0, 0 0), (2 2, 1 0, 0 0))",
    "POLYGON ((1 2, 2 1))",
    "POLYGON ((1 0, -1 0))",
    "POLYGON ((-9223372036854775808 0, 9223372036854775807 0))",
    "MULTIPOLYGON (EMPTY, ((0 0)))",
    "MULTIPOLYGON (((0 0, 0 0)), ((0 0, 1 0)))",
    "MULTIPOLYGON (((0 0, 1 0)), ((0 0, 0 0)))",
];

/// Polygons, rings and corners.
type Corners = &'static [&'static [&'static [Point]]];

const S: &[Point] = &[(0, 0), (10, 0), (10, 10)];
const H: &[Point] = &[(4, 2), (6, 2), (6, 3), (4, 3)];
const ONE: &[Point] = &[(0, 0)];
const ENDS: &[Point] = &[(i64::MIN, i64::MAX), (i64::MAX, i64::MIN)];

/// Texts, and the corners that they hold.
const READ: &[(&str, Corners)] = &[
    // R-1's own, and the styles of GEOS and JTS, of PostGIS, and of shapely.
    ("POLYGON ((0 0, 10 0, 10 10, 0 0))", &[&[S]]),
    ("POLYGON((0 0,10 0,10 10,0 0))", &[&[S]]),
    (
        "POLYGON ((0 0, 10 0, 10 10, 0 0), (4 2, 6 2, 6 3, 4 3, 4 2))",
        &[&[S, H]],
    ),
    (
        "POLYGON((0 0,10 0,10 10,0 0),(4 2,6 2,6 3,4 3,4 2))",
        &[&[S, H]],
    ),
    (
        "MULTIPOLYGON (((0 0, 10 0, 10 10, 0 0)), ((4 2, 6 2, 6 3, 4 3, 4 2)))",
        &[&[S], &[H]],
    ),
    (
        "MULTIPOLYGON(((0 0,10 0,10 10,0 0),(4 2,6 2,6 3,4 3,4 2)),((0 0,0 0)))",
        &[&[S, H], &[ONE]],
    ),
    ("MULTIPOLYGON (((0 0, 10 0, 10 10, 0 0)), EMPTY)", &[&[S]]),
    // An EMPTY member adds no polygon, wherever it stands.
    ("POLYGON EMPTY", &[]),
    ("POLYGON    EMPTY", &[]),
    ("MULTIPOLYGON EMPTY", &[]),
    ("MULTIPOLYGON  EMPTY", &[]),
    ("MULTIPOLYGON(EMPTY)", &[]),
    ("MULTIPOLYGON ( EMPTY ) ", &[]),
    ("MULTIPOLYGON(EMPTY,EMPTY , EMPTY)", &[]),
    (
        "MULTIPOLYGON(EMPTY,((0 0,0 0)),EMPTY,((4 2,6 2,6 3,4 3,4 2)))",
        &[&[ONE], &[H]],
    ),
    // Spaces round brackets and commas, and between numbers.
    (
        "POLYGON  (  (  0   0  ,  10  0  ,  10 10  ,  0  0  )  )  ",
        &[&[S]],
    ),
    (
        "POLYGON( (0 0,10 0,10 10,0 0) ,(4 2,6 2,6 3,4 3,4 2))   ",
        &[&[S, H]],
    ),
    (
        "MULTIPOLYGON  ( ( ( 0 0 , 0 0 ) ) , EMPTY , ( ( 0 0,0 0 ) ) ) ",
        &[&[ONE], &[ONE]],
    ),
    // The last position alone is dropped: a ring may have one corner, equal corners, and a last corner equal to its first.
    ("POLYGON((0 0,0 0))", &[&[ONE]]),
    ("POLYGON((0 0,0 0,0 0))", &[&[&[(0, 0), (0, 0)]]]),
    (
        "POLYGON((0 0,1 0,0 0,0 0))",
        &[&[&[(0, 0), (1, 0), (0, 0)]]],
    ),
    ("POLYGON((0 0,-1 -10,0 0))", &[&[&[(0, 0), (-1, -10)]]]),
    (
        "POLYGON((-9223372036854775808 9223372036854775807,9223372036854775807 -9223372036854775808,-9223372036854775808 9223372036854775807))",
        &[&[ENDS]],
    ),
];

fn plan(corners: Corners) -> Plan {
    let polygon = |rings: &&[&[Point]]| rings.iter().map(|ring| ring.to_vec()).collect();
    let polygons: Vec<Polygon> = corners.iter().map(polygon).collect();
    Plan::list(&polygons)
}

/// Reads texts, in each of which both readers have to find what is stated.
fn assert_found(stated: impl IntoIterator<Item = (Vec<u8>, Judged)>) {
    let mut trials = Trials::new(read_wkt);
    for (text, stated) in stated {
        assert_eq!(judged(&text), stated, "{}", text.escape_ascii());
        trials.read_with_all_room(&text, &stated);
    }
}

#[test]
fn texts_off_the_grammar_get_21_and_its_place() {
    let stated = |&(text, place): &(&[u8], u64)| (text.to_vec(), Err((21, place)));
    assert_found(OFF_GRAMMAR.iter().map(stated));
}

#[test]
fn rings_that_are_not_closed_get_22() {
    let stated = |text: &&str| (text.as_bytes().to_vec(), Err((22, 0)));
    assert_found(UNCLOSED.iter().map(stated));
}

#[test]
fn texts_of_the_grammar_are_read() {
    let stated = |&(text, corners): &(&str, Corners)| (text.into(), Ok(plan(corners)));
    assert_found(READ.iter().map(stated));
}

/// A text of this length: its start, then one piece over and over, the last one cut.
fn filled(start: &str, piece: &str, length: usize) -> Vec<u8> {
    let mut text = start.to_string();
    while text.len() < length {
        text.push_str(piece);
    }
    text.truncate(length);
    text.into_bytes()
}

/// 65,536 bytes are read, and one more is too many, whatever the bytes are.
#[test]
fn a_text_of_one_byte_too_many_gets_1() {
    let padded = |length| filled("POLYGON((0 0,0 0))", " ", length);
    assert_found([
        (padded(LONGEST), Ok(plan(&[&[ONE]]))),
        (padded(LONGEST + 1), Err((1, 0))),
        (filled("POLYGON((0 0", ",0 0", LONGEST + 1), Err((1, 0))),
        (filled("POLYGON((0 0))", " ", LONGEST + 1), Err((1, 0))),
        (filled("", "x", LONGEST + 1), Err((1, 0))),
    ]);
}

/// The grammar has no length limit: a text of 65,536 bytes that ends early gets its length.
#[test]
fn a_longest_text_that_ends_early_gets_its_length() {
    for (start, piece) in [
        ("POLYGON", " "),
        ("POLYGON((0 0", ",0 0"),
        ("POLYGON((0 0", ",-9223372036854775808 9223372036854775807"),
        ("POLYGON((0 0,0 0)", ",(0 0,0 0)"),
        ("POLYGON((0 0,1 1)", ",(0 0,0 0)"),
        ("MULTIPOLYGON(EMPTY", ",EMPTY"),
        ("MULTIPOLYGON(EMPTY", " , ((0 0,0 0))"),
    ] {
        let early = filled(start, piece, LONGEST);
        let mut broken = early.clone();
        broken[LONGEST - 1] = 0xff;
        assert_found([
            (early, Err((21, LONGEST as u64))),
            (broken, Err((21, LONGEST as u64 - 1))),
        ]);
    }
}

/// 1, then 21, then 22, then 11 with the first table that is short: each text breaks all that comes after its number too.
#[test]
fn refusals_come_in_order() {
    let closed = "POLYGON((0 0, 1 1, 0 0))";
    let too_long = "POLYGON((0 0))".repeat(5_000);
    for (text, room, refusal) in [
        (too_long.as_str(), [0, 0, 0], (1, 0)),
        ("POLYGON((0 0))x", [0, 0, 0], (21, 14)),
        ("POLYGON((0 0, 1 1))", [0, 0, 0], (22, 0)),
        (closed, [0, 0, 0], (11, 1)),
        (closed, [3, 0, 0], (11, 1)),
        (closed, [4, 0, 0], (11, 2)),
        (closed, [4, 1, 0], (11, 3)),
        (closed, [4, 1, 1], (0, 0)),
    ] {
        let [corners, lengths, counts] = room;
        let answer = read_wkt(
            text.as_bytes(),
            &mut vec![7; corners],
            &mut vec![7; lengths],
            &mut vec![7; counts],
        );
        assert_eq!((answer.refusal, answer.detail), refusal, "{room:?}");
    }
}
