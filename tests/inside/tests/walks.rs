//! Walks of the index with rectangles of every kind, to boxes that meet them and to boxes that hold them, and places of edges: over sound
//! tables, and over tables with one number after another put to an extreme.

use capi::prepared::{Prepared, Tables};
use capi::soundness::{Cuts, check};
use inside::calls::{self, Rect, Search, place_of_edge};
use inside::shapes::{SPREADS, Spread};
use inside::walk;
use plans::plan::GRID_LIMIT;

const LOW: i64 = i64::MIN;
const HIGH: i64 = i64::MAX;

/// All of the plane, nothing, points, boxes on and beyond rims, strips, a line, a box turned inside out.
const QUERIES: [Rect; 12] = [
    [LOW, LOW, HIGH, HIGH],
    [HIGH, HIGH, LOW, LOW],
    [0, 0, 0, 0],
    [0, 0, 10, 10],
    [-5, -5, 0, 2_000_000],
    [-10, -10, -1, -1],
    [100, -GRID_LIMIT, 110, GRID_LIMIT],
    [-GRID_LIMIT, 1000, GRID_LIMIT, 1000],
    [50, 900, 40, 100],
    [5, 5, 5, 5],
    [300, 0, GRID_LIMIT, 2000],
    [20, 0, GRID_LIMIT, 0],
];

/// Coordinates at the ends of 64 bits and of the range, and beside them.
const COORDINATES: [i64; 6] = [LOW, -GRID_LIMIT - 1, -1, 7, GRID_LIMIT + 1, HIGH];

/// Places and counts: small ones, those round the number of nodes and of edges, and the ends of 64 bits.
const NUMBERS: [usize; 12] = [
    0,
    1,
    8,
    9,
    61,
    62,
    63,
    199,
    200,
    1 << 20,
    1 << 63,
    usize::MAX,
];

/// Edges that came, walks that ended or found their edge, and walks that were refused.
#[derive(Clone, Copy, Debug, Default, PartialEq, Eq)]
struct Tally {
    edges: usize,
    ends: usize,
    refused: usize,
}

impl Tally {
    fn of(edges: usize, ends: usize, refused: usize) -> Tally {
        Tally {
            edges,
            ends,
            refused,
        }
    }

    fn add(&mut self, other: Tally) {
        self.edges += other.edges;
        self.ends += other.ends;
        self.refused += other.refused;
    }
}

/// What is looked for.
#[derive(Clone, Copy, Debug)]
enum Asked {
    Walks(Search),
    Places,
}

const MEETING: Asked = Asked::Walks(Search::Meeting);
const HOLDING: Asked = Asked::Walks(Search::Holding);

fn searched(tables: &Tables, n: usize, asked: Asked) -> Tally {
    match asked {
        Asked::Walks(search) => walked(tables, n, search),
        Asked::Places => placed(tables, n),
    }
}

/// A walk for each rectangle: edge by edge as the walk written apart has it.
fn walked(tables: &Tables, n: usize, search: Search) -> Tally {
    let mut tally = Tally::default();
    for rect in QUERIES {
        let walked = calls::walk(tables.shown(), n, search, rect);
        let due = walk::walk(tables.shown(), n, search, rect);
        assert!(walked == due, "{search:?} {rect:?} of {n}");
        let (found, ended) = walked;
        tally.add(Tally::of(
            found.len(),
            usize::from(ended),
            usize::from(!ended),
        ));
    }
    tally
}

/// The places of all n edges, and of one that is not there: an edge has a place where a walk to the boxes that hold it comes to it.
fn placed(tables: &Tables, n: usize) -> Tally {
    let mut tally = Tally::default();
    for e in 0..=n {
        let place = place_of_edge(tables.shown(), n, e);
        assert_eq!(
            place.is_some(),
            e < n && comes(tables, n, e),
            "edge {e} of {n}"
        );
        assert!(place.is_none_or(|place| tables.edges[place] == e));
        let found = usize::from(place.is_some());
        tally.add(Tally::of(found, found, 1 - found));
    }
    tally
}

fn comes(tables: &Tables, n: usize, e: usize) -> bool {
    let corner = |i: usize| (tables.corners[2 * i], tables.corners[2 * i + 1]);
    let ((a, b), (c, d)) = (corner(e), corner((e + 1) % n));
    let rect = [a.min(c), b.min(d), a.max(c), b.max(d)];
    walk::walk(tables.shown(), n, Search::Holding, rect)
        .0
        .contains(&e)
}

/// The ring of n corners, prepared in tables that are sound.
fn prepared(spread: Spread, n: usize) -> Tables {
    let plan = spread.plan(n);
    let prepared = Prepared::new(&plan);
    assert_eq!(check(&plan, &prepared, Cuts::AsPrepared), Ok(()));
    prepared.tables
}

/// The rings of 0 to 120 corners together.
fn small(spread: Spread, asked: Asked) -> Tally {
    let mut tally = Tally::default();
    for n in 0..=120 {
        tally.add(searched(&prepared(spread, n), n, asked));
    }
    tally
}

/// Every field of every box, of every part and every edge number of n edges, put to each extreme in turn.
fn damaged(spread: Spread, asked: Asked, n: usize) -> [Tally; 3] {
    let mut tables = prepared(spread, n);
    let [mut boxes, mut parts, mut edges] = [Tally::default(); 3];
    for place in 0..tables.boxes.len() {
        for j in 0..4 {
            let right = tables.boxes[place][j];
            for value in COORDINATES {
                tables.boxes[place][j] = value;
                boxes.add(searched(&tables, n, asked));
            }
            tables.boxes[place][j] = right;
        }
        for j in 0..3 {
            let right = tables.parts[place][j];
            for value in NUMBERS {
                tables.parts[place][j] = value;
                parts.add(searched(&tables, n, asked));
            }
            tables.parts[place][j] = right;
        }
    }
    for place in 0..n {
        let right = tables.edges[place];
        for value in NUMBERS {
            tables.edges[place] = value;
            edges.add(searched(&tables, n, asked));
        }
        tables.edges[place] = right;
    }
    [boxes, parts, edges]
}

fn all_small(asked: Asked, due: [(usize, usize, usize); 4]) {
    for (spread, (edges, ends, refused)) in SPREADS.into_iter().zip(due) {
        let tally = small(spread, asked);
        assert_eq!(
            tally,
            Tally::of(edges, ends, refused),
            "{spread:?} {asked:?}"
        );
    }
}

fn all_damaged(spread: Spread, asked: Asked, n: usize, due: [(usize, usize, usize); 3]) {
    let due = due.map(|(edges, ends, refused)| Tally::of(edges, ends, refused));
    assert_eq!(damaged(spread, asked, n), due, "{spread:?} {asked:?}");
}

#[test]
fn boxes_that_meet_a_rectangle() {
    let ends = 1452;
    all_small(
        MEETING,
        [
            (17_962, ends, 0),
            (26_332, ends, 0),
            (24_592, ends, 0),
            (21_780, ends, 0),
        ],
    );
}

#[test]
fn boxes_that_hold_a_rectangle() {
    let ends = 1452;
    all_small(
        HOLDING,
        [
            (1_365, ends, 0),
            (3_522, ends, 0),
            (3_145, ends, 0),
            (7_260, ends, 0),
        ],
    );
}

#[test]
fn places_of_edges() {
    all_small(Asked::Places, [(7_260, 7_260, 121); 4]);
}

#[test]
fn meeting_in_damaged_tables() {
    let boxes = (986_938, 18_144, 0);
    let parts = (1_185_932, 22_155, 5_061);
    let edges = (1_384_420, 26_108, 2_692);
    all_damaged(Spread::Zigzag, MEETING, 200, [boxes, parts, edges]);
    let boxes = (812_108, 18_144, 0);
    let parts = (1_001_333, 23_133, 4_083);
    let edges = (1_150_876, 26_592, 2_208);
    all_damaged(Spread::Scattered, MEETING, 200, [boxes, parts, edges]);
}

#[test]
fn holding_in_damaged_tables() {
    let boxes = (57_700, 18_144, 0);
    let parts = (81_334, 25_936, 1_280);
    let edges = (95_048, 28_640, 160);
    all_damaged(Spread::Zigzag, HOLDING, 200, [boxes, parts, edges]);
    let boxes = (51_696, 18_144, 0);
    let parts = (76_140, 26_416, 800);
    let edges = (85_464, 28_656, 144);
    all_damaged(Spread::Scattered, HOLDING, 200, [boxes, parts, edges]);
}

#[test]
fn places_in_damaged_tables() {
    let boxes = (12_316, 12_316, 2_444);
    let parts = (16_081, 16_081, 6_059);
    let edges = (18_084, 18_084, 1_596);
    all_damaged(Spread::Zigzag, Asked::Places, 40, [boxes, parts, edges]);
    let boxes = (12_448, 12_448, 2_312);
    let parts = (14_302, 14_302, 7_838);
    let edges = (16_924, 16_924, 2_756);
    all_damaged(Spread::Scattered, Asked::Places, 40, [boxes, parts, edges]);
}

/// Plans of 1,048,576 edges.
#[test]
fn walks_at_the_ceiling() {
    let n = 1 << 20;
    let due = [
        (3_145_496, 16),
        (4_194_096, 48),
        (2_493_456, 1_080),
        (3_145_728, 1_048_576),
    ];
    for (spread, (meeting, holding)) in SPREADS.into_iter().zip(due) {
        let tables = prepared(spread, n);
        let met = walked(&tables, n, Search::Meeting);
        assert_eq!(met, Tally::of(meeting, 12, 0), "{spread:?}");
        let held = walked(&tables, n, Search::Holding);
        assert_eq!(held, Tally::of(holding, 12, 0), "{spread:?}");
    }
}
