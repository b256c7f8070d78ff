//! Every refusal that a caller can bring about, by number and in order, and that it changes nothing. Those of Well-Known Text: `wkt.rs`.

use findspot::{
    Kind, Location, MAX_COORD, MAX_CORNERS, MAX_POINTS, MAX_POLYGONS, MAX_RINGS, MAX_TEXT,
    MAX_UNDO, Plan, Point, Prepared, Refusal, locate_text,
};

const SQUARE: [(i64, i64); 4] = [(0, 0), (10, 0), (10, 10), (0, 10)];
const BEYOND: Point = Point::new(MAX_COORD + 1, 0);

fn square() -> Prepared {
    Prepared::with_undo(&Plan::ring(SQUARE), 2).expect("an accepted plan")
}

/// A plan of tables with corners at the origin.
fn of_tables(kind: Kind, corners: usize, lengths: Vec<usize>, counts: Vec<usize>) -> Plan {
    Plan::from_tables(kind, vec![Point::new(0, 0); corners], lengths, counts)
}

#[track_caller]
fn assert_refused<T: std::fmt::Debug>(answer: Result<T, Refusal>, number: u8) {
    let refusal = answer.expect_err("a refusal is due");
    assert_eq!(refusal.number(), number, "{refusal}");
}

#[test]
fn texts_that_are_too_long_get_1() {
    let mut text = b"plan\nouter\n".to_vec();
    text.extend(b"hole\n".repeat((MAX_TEXT - text.len()) / 5));
    assert_eq!(text.len(), MAX_TEXT);
    assert!(Plan::from_text(&text).is_ok());
    assert_eq!(locate_text(&text, BEYOND), Ok(Location::Outside));
    text.push(b'\n');
    assert_refused(Plan::from_text(&text), 1);
    assert_refused(locate_text(&text, BEYOND), 1);
}

#[test]
fn lines_that_break_the_format_get_2_with_their_number() {
    let refused = |text: &[u8], line| {
        assert_eq!(Plan::from_text(text), Err(Refusal::BadLine(line)));
        assert_eq!(locate_text(text, BEYOND), Err(Refusal::BadLine(line)));
        assert_refused(Plan::from_text(text), 2);
    };
    refused(b"", 1);
    refused(b"plan", 1);
    refused(b"plan\n\n", 2);
    refused(b"plan\tlist\nnode\n", 2);
    refused(b"plan\ttree\nouter\n", 2);
    refused(b"plan\nouter\nat\t1\n", 3);
    refused(b"plan\nouter\nat\t1\t01\n", 3);
    refused(b"plan\nouter\nat\t1\t2\t3\n", 3);
}

#[test]
fn tables_that_do_not_fit_together_get_3() {
    let list = |lengths, counts| Prepared::new(&of_tables(Kind::List, 4, lengths, counts));
    assert!(list(vec![4], vec![1]).is_ok());
    assert_refused(list(vec![3], vec![1]), 3);
    assert_refused(list(vec![5], vec![1]), 3);
    assert_refused(list(vec![usize::MAX, 5], vec![2]), 3);
    assert_refused(list(vec![4], vec![]), 3);
    assert_refused(list(vec![4], vec![2]), 3);
    assert_refused(list(vec![4], vec![1, 0]), 3);
    assert_refused(list(vec![4, 0], vec![usize::MAX, 3]), 3);
    let no_ring: [[[Point; 0]; 0]; 1] = [[]];
    assert_refused(Prepared::new(&Plan::list(no_ring)), 3);
}

#[test]
fn a_trees_ring_counts_are_not_looked_at() {
    let counts = vec![usize::MAX; MAX_POLYGONS + 1];
    assert!(Prepared::new(&of_tables(Kind::Tree, 4, vec![4], counts)).is_ok());
}

#[test]
fn counts_above_their_ceilings_get_4_before_3() {
    let prepare = |kind, corners, lengths, counts| {
        Prepared::new(&of_tables(kind, corners, lengths, counts)).map(|_| ())
    };
    for kind in [Kind::List, Kind::Tree] {
        assert_eq!(
            prepare(kind, MAX_CORNERS, vec![MAX_CORNERS], vec![1]),
            Ok(())
        );
        assert_refused(prepare(kind, MAX_CORNERS + 1, vec![1], vec![1]), 4);
        assert_eq!(
            prepare(kind, 0, vec![0; MAX_RINGS], vec![MAX_RINGS]),
            Ok(())
        );
        assert_refused(prepare(kind, 0, vec![1; MAX_RINGS + 1], vec![0]), 4);
    }
    assert_eq!(
        prepare(Kind::List, 0, vec![0; MAX_RINGS], vec![1; MAX_POLYGONS]),
        Ok(())
    );
    assert_refused(
        prepare(Kind::List, 1, vec![2], vec![1; MAX_POLYGONS + 1]),
        4,
    );
}

#[test]
fn room_for_too_many_moves_gets_4() {
    assert!(Prepared::with_undo(&Plan::ring(SQUARE), MAX_UNDO).is_ok());
    assert_refused(Prepared::with_undo(&Plan::ring(SQUARE), MAX_UNDO + 1), 4);
    assert_refused(Prepared::with_undo(&Plan::ring(SQUARE), usize::MAX), 4);
}

#[test]
fn too_many_points_get_4_on_any_plan() {
    let beyond = Prepared::new(&Plan::ring([BEYOND])).expect("it is accepted");
    for prepared in [square(), beyond] {
        let points = vec![Point::new(11, 11); MAX_POINTS + 1];
        assert_eq!(prepared.first_not_outside(&points[1..]), Ok(None));
        assert_refused(prepared.first_not_outside(&points), 4);
    }
}

#[test]
fn moves_get_5_6_and_13_in_this_order_and_undos_14() {
    let mut prepared = square();
    let first = prepared.clone();
    let inside = Point::new(3, 3);
    for corner in [4, 5, usize::MAX] {
        assert_refused(prepared.move_corner(corner, inside), 5);
        assert_refused(prepared.move_corner(corner, BEYOND), 5);
    }
    assert_refused(prepared.move_corner(0, BEYOND), 6);
    assert_refused(prepared.move_corner(0, Point::new(0, i64::MIN)), 6);
    assert_refused(prepared.undo(), 14);
    assert!(prepared == first);

    assert_eq!(prepared.move_corner(3, Point::new(0, MAX_COORD)), Ok(()));
    assert_eq!(prepared.move_corner(3, Point::new(0, MAX_COORD)), Ok(()));
    let full = prepared.clone();
    assert_refused(prepared.move_corner(4, BEYOND), 5);
    assert_refused(prepared.move_corner(0, BEYOND), 6);
    assert_refused(prepared.move_corner(0, inside), 13);
    assert!(prepared == full);

    assert_eq!(prepared.undo(), Ok(()));
    assert_eq!(prepared.move_corner(0, inside), Ok(()));
    assert_eq!([prepared.undo(), prepared.undo()], [Ok(()); 2]);
    assert_refused(prepared.undo(), 14);
    assert!(prepared == first);
}

#[test]
fn a_plan_without_room_for_moves_gets_13() {
    let mut prepared = Prepared::new(&Plan::ring(SQUARE)).expect("an accepted plan");
    assert_refused(prepared.move_corner(0, Point::new(1, 1)), 13);
    assert_refused(prepared.undo(), 14);
}

#[test]
fn a_plan_out_of_range_gets_12_before_all_else() {
    let plan = Plan::list([[SQUARE.map(Point::from)], [[BEYOND; 4]]]);
    let mut prepared = Prepared::with_undo(&plan, 1).expect("it is accepted");
    let first = prepared.clone();
    assert_refused(prepared.move_corner(0, Point::new(1, 1)), 12);
    assert_refused(prepared.move_corner(8, BEYOND), 12);
    assert_refused(prepared.undo(), 12);
    assert!(prepared == first);
    assert_eq!(prepared.locate(Point::new(5, 5)), Location::Outside);
}
