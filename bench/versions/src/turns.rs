//! What a turn costs: on which side of an edge the point lies, which is asked of each edge that passes the point's height.

use crate::compared::{Compared, pairs_of};
use crate::look_up::{Asked, BY_RINGS, DOUBLED_BY_RINGS, LookUp};
use crate::subject::Subject;
use shapes::random::Random;
use shapes::{Corner, Shape};
use timing::in_turn::Effort;

/// The extents that are measured: corners lie within 2 to this power of the middle, in x and in y.
pub const POWERS: [u32; 3] = [20, 31, 40];

/// The look-ups that are measured.
pub const LOOK_UPS: [LookUp; 2] = [BY_RINGS, DOUBLED_BY_RINGS];

/// How many edges a ring has.
pub const EDGES: usize = 100_000;

/// The point that is asked. On the half-grid it lies one half to the right.
const MIDDLE: Corner = (0, 0);

/// Two rings of one extent, as both versions prepare them.
struct Rings {
    /// Each edge passes the height of the middle.
    passing: Subject,
    /// The same corners, all above the middle, so that no edge needs a turn.
    above: Subject,
}

/// Nanoseconds of an edge, by one kind of look-up.
pub struct Costs {
    /// An edge that passes.
    pub edge: Compared,
    /// How much longer that takes than an edge above the middle.
    pub turn: Compared,
}

/// Compares the replies of both versions on the rings of one extent.
pub fn agree(power: u32) -> Result<(), String> {
    Rings::new(power).map(drop)
}

/// Measures each kind of look-up on the rings of one extent.
pub fn measure(power: u32, effort: Effort) -> Result<[Costs; 2], String> {
    let rings = Rings::new(power)?;
    Ok(LOOK_UPS.map(|look_up| rings.costs(&look_up, effort)))
}

/// Corners below and above the middle in turn, with any x.
fn alternating(extent: i64) -> Vec<Corner> {
    let mut random = Random::new(extent as u64);
    let mut corner = |number| {
        let x = random.between(-extent, extent);
        let height = random.between(1, extent);
        match number % 2 {
            0 => (x, -height),
            _ => (x, height),
        }
    };
    (0..EDGES).map(&mut corner).collect()
}

impl Rings {
    /// The rings of one extent, if both versions reply alike.
    fn new(power: u32) -> Result<Rings, String> {
        let corners = alternating(1 << power);
        let raised = corners.iter().map(|&(x, y)| (x, y.abs())).collect();
        let rings = Rings {
            passing: Subject::new(&Shape::ring(corners))?,
            above: Subject::new(&Shape::ring(raised))?,
        };
        for look_up in &LOOK_UPS {
            for asked in rings.asked(look_up) {
                asked.agree()?;
            }
        }
        Ok(rings)
    }

    /// The middle asked of the ring that passes it and of the one above it.
    fn asked<'a>(&'a self, look_up: &'a LookUp) -> [Asked<'a>; 2] {
        [&self.passing, &self.above].map(|subject| Asked::new(subject, look_up, &[MIDDLE]))
    }

    fn costs(&self, look_up: &LookUp, effort: Effort) -> Costs {
        let [passing, above] = self.asked(look_up);
        let passes = passing.passes(effort);
        let edge = |asked: &Asked, engine| asked.time(passes, engine) / EDGES as f64;
        let pairs = pairs_of(effort, |engine| {
            [edge(&passing, engine), edge(&above, engine)]
        });
        let compared = |cost: fn([f64; 2]) -> f64| {
            let cost = |&(after, before): &_| (cost(after), cost(before));
            Compared::of(&pairs.iter().map(cost).collect::<Vec<_>>())
        };
        Costs {
            edge: compared(|[passing, _]| passing),
            turn: compared(|[passing, above]| passing - above),
        }
    }
}
