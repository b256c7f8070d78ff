//! Inputs of the program `findspot` with the outputs that are due.
//!
//! Replies are the original's. The rest of an output, each refusal's number and line among it, is written from document 01
//! ("Trays to try", items 10 and 6, "From the input").

use crate::oracle;
use capi::writer;
use plans::generate::{self, Case, SEED, Size};
use plans::named::named_cases;
use plans::plan::{GRID_LIMIT, Kind, Mode, Plan, Point, Query, Ring};
use plans::rays::{Chooser, RAYS, Ray};

mod refused;

/// What `findspot` takes.
const MOST_BYTES: usize = 16_384;
const MOST_CORNERS: usize = 512;
const MOST_RINGS: usize = 256;

/// What the generator is asked for.
const SIZE: Size = Size {
    corners: 120,
    rings: 24,
};

/// The points that are asked of each generated plan.
const QUERIES: usize = 12;

/// The words of the three replies, by their numbers.
const WORDS: [&str; 3] = ["outside", "inside", "boundary"];

/// Document 01's square and the square hole in it.
const SQUARE: [Point; 4] = [(0, 0), (10, 0), (10, 10), (0, 10)];
const HOLE: [Point; 4] = [(4, 4), (6, 4), (6, 6), (4, 6)];

/// What each of document 01's named cases shows, in their order.
const NAMED: [&str; 15] = [
    "square",
    "empty_ring",
    "one_corner",
    "two_corners",
    "hole",
    "empty_outer",
    "holes_in_order",
    "holes_in_the_other_order",
    "list_inside_wins",
    "tree_boundary_wins",
    "round_twice",
    "halves",
    "largest",
    "corner_out_of_range",
    "diamond",
];

/// The families of generated plans, in their order.
const FAMILIES: [&str; 14] = [
    "single_ring",
    "holed_polygon",
    "overlapping_holes",
    "flat_outers",
    "small_list",
    "neighbours",
    "small_tree",
    "nested_tree",
    "long_ring",
    "tree_of_long_rings",
    "many_polygons",
    "tree_of_squares",
    "mostly_empty_rings",
    "squares_inside_each_other",
];

/// An input of `findspot` and the output that is due.
pub struct Sample {
    pub name: String,
    pub input: String,
    pub output: String,
}

/// All samples: those that are answered whole, then those that are refused.
pub fn samples() -> Vec<Sample> {
    let mut samples = vec![worked_example(), bare_header(), no_rings(), no_points()];
    samples.extend(named());
    samples.extend(RAYS.map(|ray| one_ray(Kind::List, ray)));
    samples.extend(RAYS.map(|ray| one_ray(Kind::Tree, ray)));
    samples.extend([Kind::List, Kind::Tree].map(every_reply));
    samples.extend([beyond_range(), ends_of_64_bits(), far_points()]);
    samples.extend([most_corners(), most_rings(), most_bytes()]);
    samples.extend(generated());
    samples.extend(refused::samples());
    samples
}

/// The samples as files: their names and contents.
pub fn files() -> Vec<(String, String)> {
    let mut files = Vec::new();
    for Sample {
        name,
        input,
        output,
    } in samples()
    {
        files.push((format!("{name}.input"), input));
        files.push((format!("{name}.output"), output));
    }
    files
}

/// The plan's text under a header, and a line for each point.
fn input(plan: &Plan, header: &str, queries: &[Query]) -> String {
    let mut text = String::from_utf8(writer::write(plan, header)).expect("the text is ASCII");
    text.extend(queries.iter().map(|query| format!("{}\n", line(query))));
    text
}

/// The line that asks a point.
fn line(&Query { mode, x, y }: &Query) -> String {
    let word = match mode {
        Mode::Grid => "coin",
        Mode::Doubled => "half",
    };
    format!("{word}\t{x}\t{y}")
}

/// The original's replies, as lines of output.
fn replies(plan: &Plan, queries: &[Query]) -> String {
    let numbers = oracle::replies(plan, queries);
    let reply = |(query, number): (&Query, u8)| {
        let word = WORDS[usize::from(number)];
        format!("{}\t{word}\n", line(query))
    };
    queries.iter().zip(numbers).map(reply).collect()
}

/// The longest header of the plan's kind.
fn header(plan: &Plan) -> &'static str {
    writer::headers(plan.kind)[writer::headers(plan.kind).len() - 1]
}

/// A sample that is answered whole.
fn answered(name: &str, plan: &Plan, queries: &[Query]) -> Sample {
    answered_under(header(plan), name, plan, queries)
}

fn answered_under(header: &str, name: &str, plan: &Plan, queries: &[Query]) -> Sample {
    let input = input(plan, header, queries);
    assert!(input.len() <= MOST_BYTES, "{name}");
    assert!(plan.corners().len() <= MOST_CORNERS, "{name}");
    assert!(plan.ring_lengths.len() <= MOST_RINGS, "{name}");
    Sample {
        name: name.to_string(),
        input,
        output: replies(plan, queries),
    }
}

/// The square with the hole in it.
fn holed_square() -> Plan {
    Plan::list(&[vec![SQUARE.to_vec(), HOLE.to_vec()]])
}

/// The input that document 01 shows.
fn worked_example() -> Sample {
    let queries = [Query::grid(5, 5), Query::grid(4, 5), Query::grid(1, 5)];
    answered("worked_example", &holed_square(), &queries)
}

/// A bare header is a list: inside either of two squares that share a side is inside, and so is that side.
fn bare_header() -> Sample {
    let right = SQUARE.map(|(x, y)| (x + 5, y));
    let plan = Plan::list(&[vec![SQUARE.to_vec()], vec![right.to_vec()]]);
    let queries = [Query::grid(10, 5), Query::grid(2, 5), Query::grid(15, 5)];
    answered_under("plan", "bare_header", &plan, &queries)
}

fn no_rings() -> Sample {
    let queries = [Query::grid(0, 0), Query::doubled(1, 1)];
    answered("no_rings", &Plan::list(&[]), &queries)
}

/// A good plan and nothing asked: nothing is written.
fn no_points() -> Sample {
    answered("no_points", &holed_square(), &[])
}

fn named() -> Vec<Sample> {
    let cases = named_cases();
    assert_eq!(cases.len(), NAMED.len());
    let sample = |(shown, case): (&str, plans::named::NamedCase)| {
        let queries: Vec<Query> = case.stated.iter().map(|&(query, _)| query).collect();
        answered(&format!("named_{shown}"), &case.plan, &queries)
    };
    NAMED.into_iter().zip(cases).map(sample).collect()
}

/// The square, in a tree with a ring inside it, at the side of a plan's extent to which the ray runs, with points whose ray is this one,
/// on both grids.
fn one_ray(kind: Kind, ray: Ray) -> Sample {
    let far = [(-100, -100), (-100, 110)].map(|(x, y)| vec![(x, y), (x + 1, y), (x, y - 1)]);
    let [below, above] = far.map(|ring| turned(ray, 10, &ring));
    let [square, inner] = [SQUARE, HOLE].map(|ring| turned(ray, 10, &ring));
    let (plan, name) = match kind {
        Kind::List => (
            Plan::list(&[square, below, above].map(|ring| vec![ring])),
            "ray",
        ),
        Kind::Tree => (Plan::tree(&[square, inner, below, above]), "tree_ray"),
    };
    let points = [
        (1, 5),
        (0, 5),
        (10, 10),
        (0, 0),
        (7, 10),
        (-3, 5),
        (-3, 0),
        (-3, 10),
    ];
    // Of the tree only: in the ring inside the square, on it and at its corner.
    let inner_points = [(5, 5), (4, 5), (6, 6), (7, 5)];
    let inner_halves = [(9, 11), (8, 11), (12, 12), (13, 11)];
    let halves = [
        (1, 1),
        (0, 1),
        (19, 20),
        (-1, 0),
        (-1, 20),
        (20, 7),
        (9, -1),
    ];
    let (mut points, mut halves) = (points.to_vec(), halves.to_vec());
    if kind == Kind::Tree {
        points.extend(inner_points);
        halves.extend(inner_halves);
    }
    let mut queries = Vec::new();
    queries.extend(
        turned(ray, 10, &points)
            .iter()
            .map(|&(x, y)| Query::grid(x, y)),
    );
    queries.extend(
        turned(ray, 20, &halves)
            .iter()
            .map(|&(x, y)| Query::doubled(x, y)),
    );
    let chooser = Chooser::of(&plan);
    assert!(
        queries.iter().all(|query| chooser.ray(query) == ray),
        "{ray:?}"
    );
    let name = format!("{name}_{ray:?}").to_lowercase();
    answered(&name, &plan, &queries)
}

/// Points mirrored or swapped within the square of a side, so that what ran to the right runs along the ray.
fn turned(ray: Ray, side: i64, points: &[Point]) -> Ring {
    let turn = |&(x, y): &Point| match ray {
        Ray::Right => (x, y),
        Ray::Left => (side - x, y),
        Ray::Up => (y, x),
        Ray::Down => (y, side - x),
    };
    points.iter().map(turn).collect()
}

/// Both grids and each reply, of two squares that overlap: the half-grid goes by parity alone.
fn every_reply(kind: Kind) -> Sample {
    let right = SQUARE.map(|(x, y)| (x + 5, y));
    let rings = [SQUARE.to_vec(), right.to_vec()];
    let plan = match kind {
        Kind::List => Plan::list(&rings.map(|ring| vec![ring])),
        Kind::Tree => Plan::tree(&rings),
    };
    let points = [
        (2, 5),
        (7, 5),
        (12, 5),
        (10, 5),
        (7, 0),
        (0, 3),
        (16, 5),
        (7, 11),
    ];
    let mut queries: Vec<Query> = points.map(|(x, y)| Query::grid(x, y)).to_vec();
    queries.extend(points.map(|(x, y)| Query::doubled(2 * x, 2 * y)));
    queries.extend(points.map(|(x, y)| Query::doubled(2 * x + 1, 2 * y - 1)));
    let written = replies(&plan, &queries);
    for word in ["coin", "half"] {
        let has = |reply| {
            written
                .lines()
                .any(|line| line.starts_with(word) && line.ends_with(reply))
        };
        assert!(WORDS.into_iter().all(has), "{kind:?} {word}");
    }
    answered(
        &format!("every_reply_{kind:?}").to_lowercase(),
        &plan,
        &queries,
    )
}

/// Points at the ends of the range and beyond them, on both grids, in a plan that fills it.
fn beyond_range() -> Sample {
    let end = GRID_LIMIT;
    let outline = vec![(-end, -end), (end, -end), (end, end), (-end, end)];
    let plan = Plan::list(&[vec![outline]]);
    let numbers = [end - 1, end, end + 1, -end, -end - 1, i64::MAX, i64::MIN];
    let mut queries: Vec<Query> = numbers.map(|x| Query::grid(x, 0)).to_vec();
    queries.extend(numbers.map(|y| Query::grid(3, y)));
    let doubles = [
        2 * end - 1,
        2 * end,
        2 * end + 1,
        -2 * end,
        -2 * end - 1,
        i64::MAX,
        i64::MIN,
    ];
    queries.extend(doubles.map(|x| Query::doubled(x, 1)));
    queries.extend(doubles.map(|y| Query::doubled(-1, y)));
    answered("points_beyond_range", &plan, &queries)
}

/// Numbers at the ends of 64 bits are numbers: corners there put every point outside.
fn ends_of_64_bits() -> Sample {
    let (least, most) = (i64::MIN, i64::MAX);
    let plan = Plan::tree(&[vec![
        (least, least),
        (most, least),
        (most, most),
        (least, most),
    ]]);
    let queries = [
        Query::grid(0, 0),
        Query::grid(least, most),
        Query::doubled(0, 0),
    ];
    answered("ends_of_64_bits", &plan, &queries)
}

/// Points at the ends of 64 bits, on both grids, of a plan in range: numbers, and outside.
fn far_points() -> Sample {
    let ends = [
        (i64::MIN, i64::MIN),
        (i64::MIN, i64::MAX),
        (i64::MAX, i64::MIN),
        (i64::MAX, i64::MAX),
    ];
    let mut queries: Vec<Query> = ends.map(|(x, y)| Query::grid(x, y)).to_vec();
    queries.extend(ends.map(|(x, y)| Query::doubled(x, y)));
    answered("points_at_the_ends_of_64_bits", &holed_square(), &queries)
}

/// Teeth of 512 corners, the most that a plan may have.
fn most_corners() -> Sample {
    let tooth = |x: i64| (x, if x % 2 == 0 { 4 } else { 9 + x % 7 });
    let mut ring: Ring = (0..510).map(tooth).collect();
    ring.extend([(509, 0), (0, 0)]);
    let plan = Plan::list(&[vec![ring]]);
    assert_eq!(plan.corners().len(), MOST_CORNERS);
    let points = [
        (0, 4),
        (100, 4),
        (101, 5),
        (101, 9),
        (255, 0),
        (255, 20),
        (300, 3),
        (508, 7),
        (509, 2),
    ];
    let mut queries: Vec<Query> = points.map(|(x, y)| Query::grid(x, y)).to_vec();
    queries.extend(points.map(|(x, y)| Query::doubled(2 * x - 1, 2 * y + 1)));
    answered("most_corners", &plan, &queries)
}

/// 256 rings, the most that a plan may have: a hundred squares inside each other, more than a look-up counts in one walk, and empty rings.
fn most_rings() -> Sample {
    let square = |k: i64| vec![(k, k), (300 - k, k), (300 - k, 300 - k), (k, 300 - k)];
    let mut rings: Vec<Ring> = (0..100).map(square).collect();
    rings.resize(MOST_RINGS, Vec::new());
    let plan = Plan::tree(&rings);
    let points = [
        (150, 150),
        (0, 0),
        (50, 150),
        (99, 150),
        (98, 150),
        (301, 5),
        (100, 100),
        (10, 290),
    ];
    let mut queries: Vec<Query> = points.map(|(x, y)| Query::grid(x, y)).to_vec();
    queries.extend(points.map(|(x, y)| Query::doubled(2 * x + 1, 2 * y + 1)));
    answered("most_rings", &plan, &queries)
}

/// An input of exactly 16,384 bytes.
fn most_bytes() -> Sample {
    let plan = holed_square();
    let sample = answered("most_bytes", &plan, &many_points(&plan, MOST_BYTES));
    assert_eq!(sample.input.len(), MOST_BYTES);
    sample
}

/// Points that make the input so long: lines of 9 bytes, and of 10 for what is left over.
fn many_points(plan: &Plan, bytes: usize) -> Vec<Query> {
    let room = bytes - input(plan, header(plan), &[]).len();
    let (count, longer) = (room / 9, room % 9);
    let query = |k: usize| {
        let y = (k / 10 % 10) as i64;
        let x = if k < longer { 10 } else { (k % 10) as i64 };
        Query::grid(x, y)
    };
    (0..count).map(query).collect()
}

/// A plan of each family.
fn generated() -> Vec<Sample> {
    let sample = |(number, family): (usize, &str)| {
        let Case { plan, queries } = generate::case(SEED, number, SIZE, QUERIES);
        answered(&format!("generated_{family}"), &plan, &queries)
    };
    FAMILIES.into_iter().enumerate().map(sample).collect()
}
