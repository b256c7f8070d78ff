//! The constants of `include/findspot.h` against the numbers of documents 01 and 02 and, for tables and kinds, which have an order or a name
//! alone there, this repository's, written down a second time. The compilers hold the header's declarations together; of a number they cannot
//! know that it is the right one.

use std::collections::BTreeMap;

const HEADER: &str = include_str!("../../../include/findspot.h");

/// A place (item 11), or minus the number of a refusal.
const PLACES: [(&str, i64); 6] = [
    ("FINDSPOT_OUTSIDE", 0),
    ("FINDSPOT_INSIDE", 1),
    ("FINDSPOT_BOUNDARY", 2),
    ("FINDSPOT_TEXT_TOO_LONG", -1),
    ("FINDSPOT_BAD_LINE", -2),
    ("FINDSPOT_UNSOUND", -15),
];

/// The refusals, from the input, from the state and from Well-Known Text; 0 is none.
const REFUSALS: [(&str, i64); 14] = [
    ("FINDSPOT_ACCEPTED", 0),
    ("FINDSPOT_REFUSED_TEXT_TOO_LONG", 1),
    ("FINDSPOT_REFUSED_BAD_LINE", 2),
    ("FINDSPOT_REFUSED_UNEVEN", 3),
    ("FINDSPOT_REFUSED_TOO_MANY", 4),
    ("FINDSPOT_REFUSED_NO_SUCH_CORNER", 5),
    ("FINDSPOT_REFUSED_PLACE_OUT_OF_RANGE", 6),
    ("FINDSPOT_REFUSED_TABLE_TOO_SHORT", 11),
    ("FINDSPOT_REFUSED_PLAN_OUT_OF_RANGE", 12),
    ("FINDSPOT_REFUSED_UNDO_FULL", 13),
    ("FINDSPOT_REFUSED_NOTHING_TO_UNDO", 14),
    ("FINDSPOT_REFUSED_UNSOUND", 15),
    ("FINDSPOT_REFUSED_OFF_GRAMMAR", 21),
    ("FINDSPOT_REFUSED_UNCLOSED", 22),
];

/// The tables in the order in which refusal 11 looks at them, and the output as the sixth.
const TABLES: [(&str, i64); 6] = [
    ("FINDSPOT_TABLE_CORNERS", 1),
    ("FINDSPOT_TABLE_RINGS", 2),
    ("FINDSPOT_TABLE_POLYGONS", 3),
    ("FINDSPOT_TABLE_NODES", 4),
    ("FINDSPOT_TABLE_EDGES", 5),
    ("FINDSPOT_TABLE_OUTPUT", 6),
];

const KINDS: [(&str, i64); 2] = [("FINDSPOT_LIST", 0), ("FINDSPOT_TREE", 1)];

/// A text of C without its comments.
fn without_comments(text: &str) -> String {
    let mut parts = text.split("/*");
    let before = parts.next().unwrap_or_default();
    let behind = parts.map(|part| part.split_once("*/").expect("a comment ends").1);
    [before].into_iter().chain(behind).collect()
}

/// The constants of the enums in a header. Each has to stand there with its number.
fn constants(header: &str) -> BTreeMap<String, i64> {
    let code = without_comments(header);
    let mut constants = BTreeMap::new();
    for part in code.split("enum").skip(1) {
        let body = part.split_once('{').expect("an enum begins").1;
        let body = body.split_once('}').expect("an enum ends").0;
        for constant in body.split(',').map(str::trim).filter(|c| !c.is_empty()) {
            let (name, number) = constant.split_once(" = ").expect(constant);
            let number = number.parse().expect(constant);
            let before = constants.insert(name.to_string(), number);
            assert_eq!(before, None, "{name} comes twice");
        }
    }
    constants
}

/// The constants that are due.
fn stated() -> BTreeMap<String, i64> {
    let all = [&PLACES[..], &REFUSALS, &TABLES, &KINDS].concat();
    all.into_iter()
        .map(|(name, number)| (name.to_string(), number))
        .collect()
}

#[test]
fn the_header_has_the_stated_constants_and_no_other() {
    assert_eq!(constants(HEADER), stated());
}

#[test]
fn a_constant_that_is_changed_added_or_left_out_is_seen() {
    for (name, number) in stated() {
        let written = format!("{name} = {number}");
        assert!(HEADER.contains(&written), "{written} does not stand there");
        for wrong in [
            format!("{name} = {}", number + 1),
            format!("{name} = {}", -1 - number),
            format!("{written}, {name}_TOO = {number}"),
            String::new(),
        ] {
            let changed = constants(&HEADER.replacen(&written, &wrong, 1));
            assert!(changed != stated(), "{wrong:?} for {written}");
        }
    }
}
