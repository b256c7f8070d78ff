//! What each refusal says: its number, what is wrong, with the line or table where one is named, and what to do about it. Each is brought
//! about through the crate; 11 and 15, which no caller can bring about, are made by hand.

use findspot::{
    Kind, MAX_COORD, MAX_CORNERS, MAX_POINTS, MAX_POLYGONS, MAX_RINGS, MAX_TEXT, MAX_UNDO, Plan,
    Point, Prepared, Refusal, Table, locate_text,
};
use std::collections::BTreeSet;
use std::error::Error;

const SQUARE: [(i64, i64); 4] = [(0, 0), (10, 0), (10, 10), (0, 10)];
const ORIGIN: Point = Point::new(0, 0);
const BEYOND: Point = Point::new(MAX_COORD + 1, 0);

/// A refusal, its number, and words that stand in what is wrong and in what to do.
struct Said {
    refusal: Refusal,
    number: u8,
    wrong: Vec<String>,
    remedy: Vec<String>,
}

/// What is refused alike, however it is brought about.
fn said<T, const WAYS: usize>(
    answers: [Result<T, Refusal>; WAYS],
    number: u8,
    wrong: &[&str],
    remedy: &[&str],
) -> Vec<Said> {
    let words = |words: &[&str]| words.iter().map(|word| word.to_string()).collect();
    let one = |answer: Result<T, Refusal>| Said {
        refusal: answer.err().expect("a refusal is due"),
        number,
        wrong: words(wrong),
        remedy: words(remedy),
    };
    answers.into_iter().map(one).collect()
}

fn square(room: usize) -> Prepared {
    Prepared::with_undo(&Plan::ring(SQUARE), room).expect("an accepted plan")
}

/// Prepares a list of tables with corners at the origin.
fn list(corners: usize, lengths: Vec<usize>, counts: Vec<usize>) -> Result<(), Refusal> {
    let plan = Plan::from_tables(Kind::List, vec![ORIGIN; corners], lengths, counts);
    Prepared::new(&plan).map(|_| ())
}

fn of_texts() -> Vec<Said> {
    let long = vec![b'\n'; MAX_TEXT + 1];
    let bytes = format!("{MAX_TEXT} bytes");
    let written = Plan::ring(vec![ORIGIN; MAX_TEXT / 5]).to_wkt();
    let too_long = [
        Plan::from_text(&long).map(|_| ()),
        locate_text(&long, ORIGIN).map(|_| ()),
        Plan::from_wkt(&long).map(|_| ()),
        written.map(|_| ()),
    ];
    let remedy = ["split the plan", "to be read", "as rings"];
    let mut all = said(too_long, 1, &["text", &bytes], &remedy);
    let words = [
        "mend",
        "`plan`",
        "`list`",
        "`tree`",
        "`outer`",
        "`hole`",
        "`node`",
        "`at`",
        "x and y",
        "tabs",
        "line feed",
    ];
    for (text, line) in [
        (&b""[..], "line 1 "),
        (b"plan\nouter\nat\t1\n", "line 3 "),
        (b"plan\nouter\nat\t1\t2\nhole", "line 4 "),
    ] {
        all.extend(said([Plan::from_text(text)], 2, &[line, "format"], &words));
        all.extend(said(
            [locate_text(text, ORIGIN)],
            2,
            &[line, "format"],
            &words,
        ));
    }
    all
}

fn of_well_known_text() -> Vec<Said> {
    let words = [
        "mend",
        "`POLYGON`",
        "`MULTIPOLYGON`",
        "`EMPTY`",
        "brackets",
        "capitals",
        "whole numbers",
        "64 bits",
        "no tab or line end",
    ];
    let mut all = Vec::new();
    for (text, place) in [
        (&b""[..], "byte 0,"),
        (b"POLYGON Z EMPTY", "byte 8,"),
        (b"POLYGON ((0 0", "byte 13,"),
    ] {
        let wrong = [place, "from 0", "grammar", "Well-Known Text"];
        all.extend(said([Plan::from_wkt(text)], 21, &wrong, &words));
    }
    let empty: [Point; 0] = [];
    let unclosed = [
        Plan::from_wkt(b"POLYGON ((0 0, 1 1))").map(|_| ()),
        Plan::from_wkt(b"POLYGON ((0 0))").map(|_| ()),
        Plan::tree([SQUARE]).to_wkt().map(|_| ()),
        Plan::ring(empty).to_wkt().map(|_| ()),
    ];
    let wrong = ["ends elsewhere", "one position", "a tree", "an empty ring"];
    let remedy = ["first position", "a list", "corners"];
    all.extend(said(unclosed, 22, &wrong, &remedy));
    all
}

fn of_plans() -> Vec<Said> {
    let uneven = [
        list(4, vec![3], vec![1]),
        list(4, vec![4], vec![2]),
        list(4, vec![4], vec![1, 0]),
    ];
    let fitting = [
        "ring lengths",
        "corners",
        "ring counts",
        "rings",
        "each polygon",
    ];
    let mut all = said(uneven, 3, &["do not fit together"], &fitting);
    let listed = square(0).first_not_outside(&vec![ORIGIN; MAX_POINTS + 1]);
    let roomy = Prepared::with_undo(&Plan::ring(SQUARE), MAX_UNDO + 1);
    let many = [
        list(MAX_CORNERS + 1, vec![MAX_CORNERS + 1], vec![1]),
        list(0, vec![0; MAX_RINGS + 1], vec![MAX_RINGS + 1]),
        list(0, vec![0; MAX_RINGS], vec![1; MAX_POLYGONS + 1]),
        listed.map(|_| ()),
        roomy.map(|_| ()),
    ];
    let ceilings = [
        format!("{MAX_CORNERS} corners"),
        format!("{MAX_RINGS} rings"),
        format!("{MAX_POLYGONS} polygons"),
        format!("{MAX_POINTS} listed points"),
        format!("{MAX_UNDO} moves to undo"),
        "split".to_string(),
    ];
    let ceilings: Vec<&str> = ceilings.iter().map(String::as_str).collect();
    all.extend(said(many, 4, &["too many"], &ceilings));
    all
}

fn of_corrections() -> Vec<Said> {
    let coordinate = MAX_COORD.to_string();
    let most = MAX_UNDO.to_string();
    let order = ["number", "plan's order", "from 0"];
    let no_corner = [square(1).move_corner(4, ORIGIN)];
    let mut all = said(no_corner, 5, &["no such corner"], &order);
    let far = [square(1).move_corner(0, BEYOND)];
    all.extend(said(far, 6, &["new place", "out of range"], &[&coordinate]));
    let mut marked = Prepared::with_undo(&Plan::ring([BEYOND]), 1).expect("it is accepted");
    let marked = [marked.move_corner(0, ORIGIN), marked.undo()];
    let again = ["prepare it again", coordinate.as_str()];
    all.extend(said(marked, 12, &["corner out of range"], &again));
    let mut full = square(1);
    full.move_corner(0, ORIGIN).expect("there is room for one");
    let full = [
        full.move_corner(0, ORIGIN),
        square(0).move_corner(0, ORIGIN),
    ];
    let room = ["undo one", "prepare", "room for more", most.as_str()];
    all.extend(said(full, 13, &["no room", "record"], &room));
    let nothing = [square(1).undo()];
    all.extend(said(
        nothing,
        14,
        &["nothing to undo"],
        &["leave the plan as it is"],
    ));
    all
}

/// The crate lends tables that are long enough and keeps them sound.
fn of_no_caller() -> Vec<Said> {
    let tables = [
        (Table::Corners, "table of corners"),
        (Table::Rings, "table of rings"),
        (Table::Polygons, "table of polygons"),
        (Table::Nodes, "table of nodes"),
        (Table::Edges, "table of edges"),
        (Table::Output, "table of output bytes"),
    ];
    let mut all = Vec::new();
    for (table, name) in tables {
        let short = [Err::<(), _>(Refusal::TableTooShort(table))];
        all.extend(said(short, 11, &[name, "too short"], &["build both"]));
    }
    let unsound = [Err::<(), _>(Refusal::Unsound)];
    all.extend(said(unsound, 15, &["tables"], &["prepare the plan again"]));
    all
}

fn all() -> Vec<Said> {
    let mut all = of_texts();
    all.extend(of_well_known_text());
    all.extend(of_plans());
    all.extend(of_corrections());
    all.extend(of_no_caller());
    all
}

#[test]
fn a_message_is_the_number_what_is_wrong_and_what_to_do() {
    for case in all() {
        let message = case.refusal.to_string();
        assert_eq!(case.refusal.number(), case.number, "{message}");
        let start = format!("refusal {}: ", case.number);
        let text = message.strip_prefix(&start).expect(&message);
        let parts: Vec<&str> = text.split("; ").collect();
        let [wrong, remedy] = parts[..] else {
            panic!("not two parts: {message}");
        };
        for (part, words) in [(wrong, case.wrong), (remedy, case.remedy)] {
            for word in words {
                assert!(part.contains(&word), "{word:?} is not in {part:?}");
            }
        }
    }
}

/// Texts, each with its first bad line and what is wrong with that line.
const FAULTS: [(&[u8], usize, &str); 18] = [
    (b"", 1, "the text is empty"),
    (b"plan\nouter", 2, "it is not ended by a line feed"),
    (b"plan\r\n", 1, "it has a carriage return"),
    (
        b"plan\nouter\nat 1 2\n",
        3,
        "it has a space where a tab is due",
    ),
    (b"plan\n\n", 2, "it is empty"),
    (b"outer\n", 1, "the first line has to be the header `plan`"),
    (
        b"plan\tforest\n",
        1,
        "`plan` goes alone or with `list` or `tree`",
    ),
    (
        b"plan\nouter\nplan\n",
        3,
        "there is one header, the first line",
    ),
    (b"plan\nat\t1\t2\n", 2, "a corner needs a ring before it"),
    (
        b"plan\nouter\nat\t01\t2\n",
        3,
        "a number is not decimal, of 64 bits and in its shortest form",
    ),
    (b"plan\nouter\nat\t1\n", 3, "`at` goes with x and y"),
    (b"plan\nhole\n", 2, "a hole needs an `outer` before it"),
    (
        b"plan\tlist\nhole\n",
        2,
        "a hole needs an `outer` before it",
    ),
    (
        b"plan\ttree\nhole\n",
        2,
        "a list has `outer` and `hole`, a tree `node`",
    ),
    (
        b"plan\nouter\nnode\n",
        3,
        "a list has `outer` and `hole`, a tree `node`",
    ),
    (
        b"plan\nouter\t1\n",
        2,
        "the word that opens a ring goes alone",
    ),
    (
        b"plan\nring\n",
        2,
        "it starts with none of the words `outer`, `hole`, `node` and `at`",
    ),
    (
        b"plan\ttree\nnode\n\t\n",
        3,
        "it starts with none of the words `outer`, `hole`, `node` and `at`",
    ),
];

#[test]
fn what_is_wrong_with_a_line_is_said_beside_it() {
    for (text, line, fault) in FAULTS {
        let refusal = Plan::from_text(text).expect_err("it is refused");
        assert_eq!(refusal, Refusal::BadLine(line), "{fault}");
        let said = format!("line {line} breaks the format");
        let explained = refusal
            .to_string()
            .replace(&said, &format!("{said}: {fault}"));
        assert_eq!(refusal.explain(text), explained);
    }
    let other = Refusal::NothingToUndo;
    assert_eq!(other.explain(b""), other.to_string());
    // a header that is none tells no kind
    let stray = Refusal::BadLine(2).explain(b"plan\tforest\nhole\n");
    assert!(stray.contains("a list has `outer` and `hole`, a tree `node`"));
}

/// Well-Known Texts, each with the place at which it leaves the grammar and what is wrong there.
const OFF_GRAMMAR: [(&[u8], usize, &str); 14] = [
    (b"", 0, "it ends there, where `M` or `P` is due"),
    (
        b" POLYGON EMPTY",
        0,
        "a space stands there, where `M` or `P` is due",
    ),
    (b"Polygon EMPTY", 1, "`o` stands there, where `O` is due"),
    (
        b"POLYGON Z EMPTY",
        8,
        "`Z` stands there, where a space or `(` or `E` is due",
    ),
    (
        b"POLYGON EMPTY\n",
        13,
        "`\\n` stands there, where its end is due",
    ),
    (
        b"POLYGON (EMPTY)",
        9,
        "`E` stands there, where a space or `(` is due",
    ),
    (
        b"POLYGON (())",
        10,
        "`)` stands there, where a space or `-` or a digit from 0 to 9 is due",
    ),
    (
        b"POLYGON ((01 0",
        11,
        "`1` stands there, where a space is due",
    ),
    (
        b"POLYGON ((-0 0",
        11,
        "`0` stands there, where a digit from 1 to 9 is due",
    ),
    (
        b"POLYGON ((1.5 0",
        11,
        "`.` stands there, where a space or a digit from 0 to 9 is due",
    ),
    (
        b"POLYGON ((9223372036854775808",
        28,
        "`8` stands there, where a space or a digit from 0 to 7 is due",
    ),
    (
        b"POLYGON ((0 0 0",
        14,
        "`0` stands there, where a space or `)` or `,` is due",
    ),
    (
        b"POLYGON ((0 0, 0 0)",
        19,
        "it ends there, where a space or `)` or `,` is due",
    ),
    (
        b"POLYGON ((0 0, 1 1))\xff",
        20,
        "`\\xff` stands there, where a space or its end is due",
    ),
];

#[test]
fn what_is_due_at_a_place_is_said_beside_it() {
    for (text, place, fault) in OFF_GRAMMAR {
        let refusal = Plan::from_wkt(text).expect_err("it is refused");
        assert_eq!(refusal, Refusal::OffGrammar(place), "{fault}");
        let said = "leaves the grammar of Well-Known Text";
        let explained = refusal
            .to_string()
            .replace(said, &format!("{said}: {fault}"));
        assert_eq!(refusal.explain(text), explained);
    }
    // nothing can stand behind a text as long as texts may be, and nothing is known of another text than the one refused
    let longest = [b"POLYGON", &b" ".repeat(MAX_TEXT)[7..]].concat();
    let early = Plan::from_wkt(&longest).expect_err("it is refused");
    assert_eq!(early, Refusal::OffGrammar(MAX_TEXT));
    for other in [&longest[..], b"LINESTRING"] {
        let explained = early.explain(other);
        assert!(explained.contains("it ends there; mend"), "{explained}");
    }
}

#[test]
fn every_number_is_among_them() {
    let numbers: BTreeSet<u8> = all().iter().map(|case| case.number).collect();
    assert!(
        numbers
            .into_iter()
            .eq([1, 2, 3, 4, 5, 6, 11, 12, 13, 14, 15, 21, 22])
    );
}

#[test]
fn a_refusal_is_an_error_that_keeps_its_value() {
    fn asked(refusal: Refusal) -> Result<(), Box<dyn Error + Send + Sync>> {
        Err(refusal)?
    }
    for Said { refusal, .. } in all() {
        let error = asked(refusal).expect_err("it is refused");
        assert_eq!(error.to_string(), refusal.to_string());
        assert_eq!(error.downcast_ref::<Refusal>(), Some(&refusal));
        assert!(error.source().is_none(), "{refusal}");
    }
}
