//! Well-Known Text (document 02, R-1): what is read and what is written, each refusal in its order, and that a written plan, read again, is the
//! plan from which it came.

mod common;

use common::{Random, new_place, plan};
use findspot::{Kind, MAX_COORD, MAX_CORNERS, MAX_TEXT, Plan, Point, Prepared, Refusal};

#[path = "../examples/wkt.rs"]
#[allow(dead_code, reason = "its `main` is for cargo run")]
mod example;

/// Generated plans of each test.
const PLANS: u64 = 1_500;

const SQUARE: [(i64, i64); 4] = [(0, 0), (10, 0), (10, 10), (0, 10)];
const HOLE: [(i64, i64); 4] = [(4, 4), (6, 4), (6, 6), (4, 6)];
const BESIDE: [(i64, i64); 3] = [(30, 0), (34, 0), (30, 4)];

fn read(text: &str) -> Result<Plan, Refusal> {
    Plan::from_wkt(text.as_bytes())
}

/// A list of no polygons.
fn nothing() -> Plan {
    Plan::from_tables(Kind::List, vec![], vec![], vec![])
}

/// Two polygons, the first with a hole.
fn trench() -> Plan {
    Plan::list([vec![SQUARE.to_vec(), HOLE.to_vec()], vec![BESIDE.to_vec()]])
}

/// A plan whose corners are all at the origin.
fn of_tables(kind: Kind, corners: usize, lengths: Vec<usize>, counts: Vec<usize>) -> Plan {
    Plan::from_tables(kind, vec![Point::default(); corners], lengths, counts)
}

/// The text of a list without empty rings, by R-1's words and not by the library.
fn text_due(plan: &Plan) -> String {
    if plan.ring_counts().is_empty() {
        return "MULTIPOLYGON EMPTY".to_string();
    }
    let mut corners = plan.corners();
    let mut rings = plan.ring_lengths().iter().map(|&length| {
        let (ring, rest) = corners.split_at(length);
        corners = rest;
        let pair = |corner: &Point| format!("{} {}", corner.x, corner.y);
        let closed: Vec<String> = ring.iter().chain(ring.first()).map(pair).collect();
        format!("({})", closed.join(", "))
    });
    let polygon = |&count: &usize| {
        let rings: Vec<String> = rings.by_ref().take(count).collect();
        format!("({})", rings.join(", "))
    };
    let polygons: Vec<String> = plan.ring_counts().iter().map(polygon).collect();
    format!("MULTIPOLYGON ({})", polygons.join(", "))
}

#[test]
fn texts_are_read_as_other_programs_space_them() {
    for text in [
        "MULTIPOLYGON (((0 0, 10 0, 10 10, 0 10, 0 0), (4 4, 6 4, 6 6, 4 6, 4 4)), ((30 0, 34 0, 30 4, 30 0)))",
        "MULTIPOLYGON(((0 0,10 0,10 10,0 10,0 0),(4 4,6 4,6 6,4 6,4 4)),((30 0,34 0,30 4,30 0)))",
        "MULTIPOLYGON (EMPTY, ((0 0, 10 0, 10 10, 0 10, 0 0), (4 4, 6 4, 6 6, 4 6, 4 4)), EMPTY, ((30 0, 34 0, 30 4, 30 0)), EMPTY)",
        "MULTIPOLYGON  ( ( ( 0  0 ,10 0 , 10   10,0 10,0 0 ),(4 4,6 4,6 6,4 6,4 4) ) , EMPTY , ( (30 0,34 0,30 4,30 0) ) )   ",
    ] {
        assert_eq!(read(text), Ok(trench()), "{text}");
    }
    let holed = "POLYGON ((0 0, 10 0, 10 10, 0 10, 0 0), (4 4, 6 4, 6 6, 4 6, 4 4))";
    assert_eq!(read(holed), Ok(Plan::polygon([SQUARE, HOLE])));
    assert_eq!(read("POLYGON((3 3,3 3))"), Ok(Plan::ring([(3, 3)])));
}

#[test]
fn empty_texts_and_members_add_no_polygon() {
    for text in [
        "POLYGON EMPTY",
        "POLYGON   EMPTY",
        "MULTIPOLYGON EMPTY",
        "MULTIPOLYGON(EMPTY)",
        "MULTIPOLYGON ( EMPTY ,EMPTY, EMPTY ) ",
    ] {
        assert_eq!(read(text), Ok(nothing()), "{text}");
    }
}

#[test]
fn numbers_go_to_the_ends_of_64_bits() {
    let ends = Plan::ring([(i64::MIN, i64::MAX), (-1, 0), (MAX_COORD + 1, 1)]);
    let text = text_due(&ends);
    assert_eq!(read(&text).as_ref(), Ok(&ends));
    assert_eq!(ends.to_wkt().as_ref(), Ok(&text));
}

#[test]
fn texts_off_the_grammar_get_21_with_the_place() {
    for (text, place) in [
        ("", 0),
        (" POLYGON EMPTY", 0),
        ("SRID=4326;POLYGON EMPTY", 0),
        ("LINESTRING (0 0, 1 1)", 0),
        ("polygon empty", 0),
        ("POLYGON", 7),
        ("POLYGONEMPTY", 7),
        ("POLYGON Z EMPTY", 8),
        ("POLYGON EMPTY ", 13),
        ("POLYGON EMPTY\n", 13),
        ("POLYGON ()", 9),
        ("POLYGON (0 0)", 9),
        ("POLYGON (EMPTY)", 9),
        ("POLYGON (())", 10),
        ("POLYGON\t((0 0, 0 0))", 7),
        ("MULTIPOLYGON ((0 0))", 15),
        ("MULTIPOLYGON (((EMPTY", 16),
        ("MULTIPOLYGON (EMPTY EMPTY", 20),
        ("POLYGON((01", 10),
        ("POLYGON((-0", 10),
        ("POLYGON((+1", 9),
        ("POLYGON((--1", 10),
        ("POLYGON((0.0", 10),
        ("POLYGON((1e5", 10),
        ("POLYGON((0,0", 10),
        ("POLYGON((0 0 0", 13),
        ("POLYGON((9223372036854775808", 27),
        ("POLYGON((-9223372036854775809", 28),
        ("POLYGON((9223372036854775807 0", 30),
        ("POLYGON((-9223372036854775808 0", 31),
        ("POLYGON((0 0,0 0)) EMPTY", 19),
        ("POLYGON((0 0,0 0)),((0 0,0 0))", 18),
    ] {
        assert_eq!(read(text), Err(Refusal::OffGrammar(place)), "{text:?}");
    }
}

#[test]
fn a_text_that_ends_early_or_has_a_strange_byte_gets_21_there() {
    let whole = "MULTIPOLYGON (((0 0, 10 0, -10 10, 0 0), (4 4, 6 4, 4 4)), EMPTY, ((3 3, 3 3)))";
    assert!(read(whole).is_ok());
    for place in 0..whole.len() {
        let refusal = Refusal::OffGrammar(place);
        assert_eq!(read(&whole[..place]), Err(refusal));
        for byte in [b'x', b'\t', b'\n', b'\r', 0, b'.', b'[', 0xff] {
            let mut text = whole.as_bytes().to_vec();
            text[place] = byte;
            assert_eq!(
                Plan::from_wkt(&text),
                Err(refusal),
                "{}",
                text.escape_ascii()
            );
        }
    }
}

#[test]
fn rings_that_are_not_closed_get_22() {
    for text in [
        "POLYGON ((0 0))",
        "POLYGON ((0 0, 1 0))",
        "POLYGON ((0 0, 0 1))",
        "POLYGON ((0 0, 10 0, 10 10))",
        "POLYGON ((0 0, 10 0, 10 10, 0 0), (4 4, 6 4, 6 6))",
        "MULTIPOLYGON (((0 0, 1 1)), EMPTY, ((0 0, 1 1, 0 0)))",
    ] {
        assert_eq!(read(text), Err(Refusal::Unclosed), "{text}");
    }
}

#[test]
fn the_whole_text_is_judged_for_21_before_22() {
    let text = "POLYGON((0 0, 1 1), (";
    assert_eq!(read(text), Err(Refusal::OffGrammar(text.len())));
}

#[test]
fn texts_that_are_too_long_get_1_before_all_else() {
    for text in ["POLYGON((0 0,1 1,0 0))", "POLYGON((0 0,1 1))"] {
        let due = read(text);
        let padded = |length: usize| text.to_string() + &" ".repeat(length - text.len());
        assert_eq!(read(&padded(MAX_TEXT)), due);
        assert_eq!(read(&padded(MAX_TEXT + 1)), Err(Refusal::TextTooLong));
    }
    let early = "POLYGON".to_string() + &" ".repeat(MAX_TEXT - 7);
    assert_eq!(read(&early), Err(Refusal::OffGrammar(MAX_TEXT)));
    assert_eq!(read(&(early + " ")), Err(Refusal::TextTooLong));
    assert_eq!(
        Plan::from_wkt(&[0; MAX_TEXT + 1]),
        Err(Refusal::TextTooLong)
    );
}

/// The header's largest numbers for the longest text: the crate lends enough for them.
#[test]
fn the_longest_texts_find_room() {
    let most = |words: &str, item: &str, ends: &str, count: usize| {
        let text = format!("{words}{}{ends}", vec![item; count].join(","));
        assert!(
            MAX_TEXT - text.len() < item.len() + 1,
            "{} bytes",
            text.len()
        );
        read(&text).expect("it is read")
    };
    // the last position of a ring is none of its corners
    let corners = most("POLYGON((", "0 0", "))", 16_380 + 1);
    assert_eq!(
        corners,
        of_tables(Kind::List, 16_380, vec![16_380], vec![1])
    );
    let rings = most("POLYGON(", "(0 0,0 0)", ")", 6_552);
    assert_eq!(
        rings,
        of_tables(Kind::List, 6_552, vec![1; 6_552], vec![6_552])
    );
    let polygons = most("MULTIPOLYGON(", "((0 0,0 0))", ")", 5_460);
    assert_eq!(
        polygons,
        of_tables(Kind::List, 5_460, vec![1; 5_460], vec![1; 5_460])
    );
}

#[test]
fn plans_are_written_as_r_1_words_it() {
    for (plan, text) in [
        (nothing(), "MULTIPOLYGON EMPTY"),
        (Plan::ring([(3, -3)]), "MULTIPOLYGON (((3 -3, 3 -3)))"),
        (
            Plan::ring([(0, 0), (8, 0)]),
            "MULTIPOLYGON (((0 0, 8 0, 0 0)))",
        ),
        (
            trench(),
            "MULTIPOLYGON (((0 0, 10 0, 10 10, 0 10, 0 0), (4 4, 6 4, 6 6, 4 6, 4 4)), ((30 0, 34 0, 30 4, 30 0)))",
        ),
    ] {
        assert_eq!(plan.to_wkt().as_deref(), Ok(text));
        assert_eq!(text_due(&plan), text);
    }
}

#[test]
fn writing_tests_4_and_3_before_22() {
    let written =
        |kind, corners, lengths, counts| of_tables(kind, corners, lengths, counts).to_wkt();
    let many = MAX_CORNERS + 1;
    for kind in [Kind::List, Kind::Tree] {
        assert_eq!(written(kind, many, vec![0], vec![1]), Err(Refusal::TooMany));
        assert_eq!(written(kind, 4, vec![3, 0], vec![2]), Err(Refusal::Uneven));
        assert_eq!(
            written(kind, 4, vec![4, 0], vec![2]),
            Err(Refusal::Unclosed)
        );
    }
    assert_eq!(
        written(Kind::List, 4, vec![4, 0], vec![1]),
        Err(Refusal::Uneven)
    );
    assert_eq!(
        written(Kind::List, 4, vec![4], vec![1, 0]),
        Err(Refusal::Uneven)
    );
    // a tree has no ring counts that could be uneven, and is refused even without rings
    assert_eq!(
        written(Kind::Tree, 4, vec![4], vec![9]),
        Err(Refusal::Unclosed)
    );
    assert_eq!(
        written(Kind::Tree, 0, vec![], vec![]),
        Err(Refusal::Unclosed)
    );
}

#[test]
fn a_text_that_would_be_too_long_gets_1_after_22() {
    // 5n + 22 bytes for n corners at the origin, and one more for each further digit
    let ring = |wide: i64| {
        let mut corners = vec![Point::default(); (MAX_TEXT - 22) / 5];
        corners[1] = Point::new(wide, 0);
        corners
    };
    let longest = Plan::ring(ring(10_000));
    let text = longest.to_wkt().expect("it is written");
    assert_eq!(text.len(), MAX_TEXT);
    assert_eq!(read(&text).as_ref(), Ok(&longest));
    assert_eq!(
        Plan::ring(ring(100_000)).to_wkt(),
        Err(Refusal::TextTooLong)
    );
    let with_hole = Plan::polygon([ring(100_000), vec![]]);
    assert_eq!(with_hole.to_wkt(), Err(Refusal::Unclosed));
}

#[test]
fn a_corrected_plan_is_written_as_it_stands() {
    let mut prepared = Prepared::with_undo(&trench(), 2).expect("an accepted plan");
    let first = prepared.to_wkt();
    assert_eq!(first, trench().to_wkt());
    prepared
        .move_corner(2, Point::new(20, -20))
        .expect("there is room");
    let text = "MULTIPOLYGON (((0 0, 10 0, 20 -20, 0 10, 0 0), (4 4, 6 4, 6 6, 4 6, 4 4)), ((30 0, 34 0, 30 4, 30 0)))";
    assert_eq!(prepared.to_wkt().as_deref(), Ok(text));
    prepared.undo().expect("there is a move");
    assert_eq!(prepared.to_wkt(), first);
}

#[test]
fn a_prepared_plan_is_refused_as_its_plan_is() {
    let empty: [Point; 0] = [];
    for plan in [Plan::tree([SQUARE]), Plan::ring(empty)] {
        let prepared = Prepared::new(&plan).expect("an accepted plan");
        assert_eq!(prepared.to_wkt(), Err(Refusal::Unclosed));
    }
    let long = Plan::ring(vec![Point::default(); MAX_TEXT]);
    let prepared = Prepared::new(&long).expect("an accepted plan");
    assert_eq!(prepared.to_wkt(), Err(Refusal::TextTooLong));
}

#[test]
fn a_plan_out_of_range_is_written() {
    let plan = Plan::ring([(MAX_COORD + 1, 0), (0, 0), (0, i64::MIN)]);
    let marked = Prepared::new(&plan).expect("it is accepted");
    assert!(!marked.in_range());
    assert_eq!(marked.to_wkt(), Ok(text_due(&plan)));
}

/// The plan with a corner in each ring that had none.
fn filled(plan: &Plan) -> Plan {
    let mut corners = plan.corners();
    let mut filled = Vec::new();
    for &length in plan.ring_lengths() {
        let (ring, rest) = corners.split_at(length);
        corners = rest;
        match ring {
            [] => filled.push(Point::default()),
            ring => filled.extend_from_slice(ring),
        }
    }
    let lengths = plan.ring_lengths().iter().map(|&length| length.max(1));
    Plan::from_tables(
        plan.kind(),
        filled,
        lengths.collect(),
        plan.ring_counts().to_vec(),
    )
}

/// What writing a generated plan is due to answer.
fn writing_due(plan: &Plan) -> Result<String, Refusal> {
    if plan.kind() == Kind::Tree || plan.ring_lengths().contains(&0) {
        return Err(Refusal::Unclosed);
    }
    let text = text_due(plan);
    if text.len() > MAX_TEXT {
        return Err(Refusal::TextTooLong);
    }
    Ok(text)
}

#[test]
fn a_written_plan_read_again_is_the_plan() {
    let (mut read_again, mut unclosed, mut too_long) = (0, 0, 0);
    for seed in 0..PLANS {
        let random = &mut Random::new(seed);
        let mut plan = plan(random);
        if random.below(3) > 0 {
            plan = filled(&plan);
        }
        let written = plan.to_wkt();
        assert_eq!(written, writing_due(&plan));
        match written {
            Ok(text) => {
                assert_eq!(read(&text), Ok(plan));
                read_again += 1;
            }
            Err(Refusal::Unclosed) => unclosed += 1,
            Err(_) => too_long += 1,
        }
    }
    let counts = [read_again, unclosed, too_long];
    assert!(counts.iter().all(|&count| count > 10), "{counts:?}");
}

/// The plan with other corners.
fn with_corners(plan: &Plan, corners: Vec<Point>) -> Plan {
    let lengths = plan.ring_lengths().to_vec();
    Plan::from_tables(plan.kind(), corners, lengths, plan.ring_counts().to_vec())
}

#[test]
fn after_moves_a_prepared_plan_is_written_with_its_corners_moved() {
    let (mut moved, mut refused) = (0, 0);
    for seed in 0..PLANS / 4 {
        let random = &mut Random::new(seed);
        let plan = filled(&plan(random));
        let mut corners = plan.corners().to_vec();
        let mut prepared = Prepared::with_undo(&plan, 8).expect("generated plans are accepted");
        for _ in 0..corners.len().min(8) {
            let corner = random.below(corners.len());
            let place = new_place(random, &corners);
            prepared.move_corner(corner, place).expect("there is room");
            corners[corner] = place;
        }
        let due = with_corners(&plan, corners);
        assert_eq!(prepared.plan(), due);
        let written = prepared.to_wkt();
        assert_eq!(written, writing_due(&due));
        match written {
            Ok(text) if text != text_due(&plan) => moved += 1,
            Ok(_) => {}
            Err(_) => refused += 1,
        }
    }
    assert!(moved > 150 && refused > 50, "{moved}, {refused}");
}

/// A text with its spaces drawn anew: any number round brackets and commas, one or more elsewhere.
fn spaced(random: &mut Random, text: &str) -> String {
    let mut spaces = |least: usize| " ".repeat(least + random.below(3));
    let bare = text.replace(", ", ",").replace(" (", "(");
    let piece = |byte: char| match byte {
        '(' | ')' | ',' => spaces(0) + &byte.to_string() + &spaces(0),
        ' ' => spaces(1),
        _ => byte.to_string(),
    };
    bare.chars().map(piece).collect()
}

#[test]
fn spaces_round_brackets_and_commas_change_nothing() {
    let mut compared = 0;
    for seed in 0..PLANS {
        let random = &mut Random::new(seed);
        let plan = filled(&plan(random));
        let Ok(text) = plan.to_wkt() else {
            continue;
        };
        let spaced = spaced(random, &text);
        if spaced.len() <= MAX_TEXT && spaced != text {
            assert_eq!(read(&spaced), Ok(plan));
            compared += 1;
        }
    }
    assert!(compared > PLANS / 2, "{compared}");
}

#[test]
fn the_example_writes_what_the_one_in_c_does() {
    let mut written = Vec::new();
    example::run(&mut written).expect("it runs");
    let stored = include_str!("../../../examples/wkt.stdout");
    assert_eq!(String::from_utf8_lossy(&written), stored);
}
