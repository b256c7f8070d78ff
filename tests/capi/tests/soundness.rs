//! The checker of soundness: it names what is wrong with tables that are not sound, takes those that are, and ends on any tables.

use capi::exports::State;
use capi::prepared::{Prepared, Tables};
use capi::soundness::{Cuts, is_correction_short, is_plan_short, is_short};
use capi::soundness::{check_index, check_tables, plan_in};
use plans::model::Call;
use plans::plan::{GRID_LIMIT, Kind, Plan};

type Damage = fn(&mut State, &mut Tables);

/// Damage that leaves tables not sound, and what the checker says of it. The plan has 28 corners, 3 rings, 2 polygons, 7 nodes and a record.
const BROKEN: &[(Damage, &str)] = &[
    (|state, _| state.kind = 2, "no kind has the number 2"),
    (|state, _| state.corners = 29, "shorter"),
    (|state, _| state.corners = u64::MAX, "shorter"),
    (|state, _| state.corners = 27, "the ring ends"),
    (|state, _| state.rings = u64::MAX, "shorter"),
    (|state, _| state.rings = 2, "the ring ends"),
    (|state, _| state.polygons = u64::MAX, "shorter"),
    (|state, _| state.polygons = 1, "the polygon ends"),
    (|_, tables| tables.corners.truncate(55), "shorter"),
    (|_, tables| tables.corners.clear(), "shorter"),
    (|_, tables| tables.rings.truncate(2), "shorter"),
    (|_, tables| tables.polygons.truncate(1), "shorter"),
    (|_, tables| tables.rings.swap(0, 1), "the ring ends"),
    (|_, tables| tables.rings[0] = usize::MAX, "the ring ends"),
    (|_, tables| tables.rings[2] = 0, "the ring ends"),
    (|_, tables| tables.polygons[0] = 0, "the polygon ends"),
    (|_, tables| tables.polygons[0] = 3, "the polygon ends"),
    (|_, tables| tables.corners[9] = i64::MIN, "out of range"),
    (
        |_, tables| tables.corners[0] = GRID_LIMIT + 1,
        "out of range",
    ),
    (|_, tables| tables.corners[0] -= 1, "the box of node 0"),
    (
        |_, tables| tables.edges.clear(),
        "the edge list is too short",
    ),
    (
        |_, tables| tables.edges.truncate(27),
        "the edge list is too short",
    ),
    (
        |_, tables| tables.edges[3] = usize::MAX,
        "an edge is missing",
    ),
    (
        |_, tables| tables.edges[3] = tables.edges[4],
        "an edge is missing",
    ),
    (|_, tables| tables.parts.clear(), "no row for node 0"),
    (|_, tables| tables.boxes.clear(), "no row for node 0"),
    (|_, tables| tables.parts.truncate(6), "no row for node 6"),
    (|_, tables| tables.boxes.truncate(6), "no row for node 6"),
    (
        |_, tables| tables.parts[0] = [usize::MAX; 3],
        "the part of node 0",
    ),
    (|_, tables| tables.parts[0][1] = 29, "the part of node 0"),
    (
        |_, tables| tables.parts[1][1] = usize::MAX,
        "the part of node 1",
    ),
    (
        |_, tables| tables.parts[0][2] = usize::MAX,
        "the left part of node 0",
    ),
    (
        |_, tables| tables.parts[0][2] = 0,
        "the left part of node 0",
    ),
    (|_, tables| tables.boxes[2][3] += 1, "the box of node 2"),
    (|_, tables| tables.boxes[2][3] -= 1, "the box of node 2"),
    (|state, _| state.undo_depth = 4, "the undo table is shorter"),
    (
        |state, _| state.undo_depth = u64::MAX,
        "the undo table is shorter",
    ),
    (
        |_, tables| tables.undo[0][0] = -1,
        "record 0 names corner -1",
    ),
    (
        |_, tables| tables.undo[0][0] = 28,
        "record 0 names corner 28",
    ),
    (
        |_, tables| tables.undo[0][2] = i64::MAX,
        "record 0 names a place out of range",
    ),
];

/// Changes that leave tables sound.
const SOUND: &[Damage] = &[
    |_, _| {},
    |_, tables| tables.corners.push(i64::MIN),
    |_, tables| tables.rings.push(0),
    |_, tables| tables.polygons.push(0),
    |_, tables| tables.boxes.push([7; 4]),
    |_, tables| tables.parts.push([usize::MAX; 3]),
    |_, tables| tables.edges.push(0),
    |_, tables| tables.undo[1] = [-1; 3],
    |state, _| state.undo_depth = 0,
    // A leaf's child is not looked at.
    |_, tables| tables.parts[6][2] = usize::MAX,
    // A tree has no polygon table.
    |state, tables| {
        state.kind = Kind::Tree as u64;
        state.polygons = u64::MAX;
        tables.polygons.clear();
    },
];

/// A ring of twenty corners with a hole, and a square beside it, one corner moved.
fn prepared() -> Prepared {
    let outer = (0..10)
        .map(|x| (10 * x, 0))
        .chain((0..10).map(|x| (90 - 10 * x, 50 + x)));
    let square = |x, y| vec![(x, y), (x + 8, y), (x + 8, y + 8), (x, y + 8)];
    let plan = Plan::list(&[vec![outer.collect(), square(20, 20)], vec![square(200, 0)]]);
    let mut prepared = Prepared::with_undo(&plan, 3).expect("an accepted plan");
    let call = Call::Move {
        corner: 3,
        to: (30, -5),
    };
    assert_eq!(prepared.correct(call), Ok(()));
    prepared
}

#[test]
fn what_is_wrong_with_tables_is_named() {
    for (number, (damage, what)) in BROKEN.iter().enumerate() {
        let Prepared {
            mut state,
            mut tables,
            ..
        } = prepared();
        damage(&mut state, &mut tables);
        let said = check_tables(state, &tables).expect_err(what);
        assert!(said.contains(what), "damage {number}: {said}");
    }
}

#[test]
fn tables_that_are_sound_are_taken() {
    for (number, damage) in SOUND.iter().enumerate() {
        let Prepared {
            mut state,
            mut tables,
            ..
        } = prepared();
        damage(&mut state, &mut tables);
        let plan = check_tables(state, &tables);
        let plan = plan.unwrap_or_else(|said| panic!("change {number}: {said}"));
        assert_eq!(plan.coordinates, prepared().tables.corners, "{number}");
        assert!(!is_short(state, &tables), "{number}");
    }
}

#[test]
fn no_number_of_the_index_is_free_but_a_leafs_child() {
    let Prepared { state, tables, .. } = prepared();
    let plan = plan_in(state, &tables).expect("sound tables");
    let check = |tables: &Tables| check_index(&plan, tables, Cuts::AsTheyAre);
    assert_eq!(check(&tables), Ok(()));
    let places = [0, 1, 2, 7, 27, 28, 1 << 40, usize::MAX - 1, usize::MAX];
    for place in 0..tables.parts.len() {
        for (column, number) in [0, 1, 2].into_iter().flat_map(|c| places.map(|n| (c, n))) {
            let mut damaged = tables.clone();
            damaged.parts[place][column] = number;
            let free = column == 2 && tables.parts[place][1] <= 8;
            let sound = free || damaged == tables;
            assert_eq!(check(&damaged).is_ok(), sound, "{place} {column} {number}");
        }
        for (column, number) in (0..4).flat_map(|c| [i64::MIN, 0, i64::MAX].map(|n| (c, n))) {
            let mut damaged = tables.clone();
            damaged.boxes[place][column] = number;
            let sound = damaged == tables;
            assert_eq!(check(&damaged).is_ok(), sound, "{place} {column} {number}");
        }
    }
    for (place, number) in (0..tables.edges.len()).flat_map(|e| places.map(|n| (e, n))) {
        let mut damaged = tables.clone();
        damaged.edges[place] = number;
        let sound = damaged == tables;
        assert_eq!(check(&damaged).is_ok(), sound, "{place} {number}");
    }
}

#[test]
fn a_table_is_short_by_one_entry() {
    let whole = prepared();
    // For a look-up ring by ring, one through the boxes, and a correction.
    let short: &[(Damage, [bool; 3])] = &[
        (|_, _| {}, [false, false, false]),
        (|_, tables| tables.corners.truncate(55), [true, true, true]),
        (|_, tables| tables.rings.truncate(2), [true, true, true]),
        (|_, tables| tables.polygons.truncate(1), [true, true, false]),
        (|_, tables| tables.boxes.truncate(6), [false, true, true]),
        (|_, tables| tables.parts.truncate(6), [false, true, true]),
        (|_, tables| tables.edges.truncate(27), [false, true, true]),
        (|_, tables| tables.undo.clear(), [false, false, true]),
        (|state, _| state.corners = 1 << 63, [true, true, true]),
    ];
    for (number, &(damage, due)) in short.iter().enumerate() {
        let Prepared {
            mut state,
            mut tables,
            ..
        } = whole.clone();
        damage(&mut state, &mut tables);
        let said = [
            is_plan_short(state, &tables),
            is_short(state, &tables),
            is_correction_short(state, &tables),
        ];
        assert_eq!(said, due, "{number}");
    }
}
