//! The parts of a comparison. Each is cut into portions that are compared one after another, and each portion depends on the seed and
//! its number alone, so that a run that was cut off begins again at the portion that it did not finish.

use crate::classes::Tally;
use crate::engine::Engine;
use crate::{lookups, moves, texts};
use plans::generate::{self, Case, Size};
use plans::largest::LARGEST;
use plans::plan::{Kind, Plan};
use plans::points;
use plans::random::Random;
use plans::sessions::{self, Session};
use plans::small;
use std::ops::Range;
use std::time::{Duration, Instant};

/// A part of the comparison.
#[derive(Clone, Copy, Debug, PartialEq, Eq)]
pub enum Mode {
    Small,
    Random,
    Largest,
    Moves,
    Wkt,
    Rules,
}

/// All parts.
pub const MODES: [Mode; 6] = [
    Mode::Small,
    Mode::Random,
    Mode::Largest,
    Mode::Moves,
    Mode::Wkt,
    Mode::Rules,
];

/// Plans of a portion of generated ones, and the points that are asked of each.
const RANDOM_PLANS: usize = 8_000;
const RANDOM_POINTS: usize = 256;

/// Plans that are often cut more than once, some of them hundreds of times.
const RANDOM_SIZE: Size = Size {
    corners: 1_500,
    rings: 200,
};

/// Every so many plans one is larger still: a number that shares no divisor with that of the families, so that each has its turn.
const LARGER_EVERY: usize = 99;
const LARGER_SIZE: Size = Size {
    corners: 20_000,
    rings: 4_000,
};

/// Sessions of a portion, with so many corrections each, and the points that are asked after each of these.
const SESSIONS: usize = 2_500;
const CORRECTIONS: usize = 48;
const POINTS_AFTER: usize = 24;
const SESSION_SIZE: Size = Size {
    corners: 150,
    rings: 40,
};

/// Every so many sessions one is of a larger plan; likewise.
const LARGER_SESSION_EVERY: usize = 51;
const LARGER_SESSION_SIZE: Size = Size {
    corners: 3_000,
    rings: 500,
};

/// Corrections of a plan at the ceilings. A look-up in the last of these plans meets every edge: few points are asked after each.
const CORRECTIONS_OF_LARGEST: usize = 12;
const POINTS_AFTER_OF_LARGEST: usize = 32;

/// Plans of a portion that are read from Well-Known Text, and the points that are asked of each. No spelling of one has more than 65,536 bytes.
const WKT_PLANS: usize = 4_000;
const WKT_POINTS: usize = 96;
const WKT_SIZE: Size = Size {
    corners: 400,
    rings: 60,
};

/// Plans of a portion that are compared with the rules, and the points that are asked of each.
const RULED_PLANS: usize = 20_000;
const RULED_POINTS: usize = 64;

/// How often each class of replies, and each answer to a correction, has to come up.
const OFTEN: u64 = 1_000;

/// The answers to corrections that have to come up: an acceptance, and the refusals.
const CORRECTION_ANSWERS: [u64; 6] = [0, 5, 6, 12, 13, 14];

impl Mode {
    /// The name by which it is asked for.
    pub fn name(self) -> &'static str {
        match self {
            Mode::Small => "small",
            Mode::Random => "random",
            Mode::Largest => "largest",
            Mode::Moves => "moves",
            Mode::Wkt => "wkt",
            Mode::Rules => "rules",
        }
    }

    /// What it compares.
    pub fn describe(self) -> &'static str {
        match self {
            Mode::Small => {
                "every plan of up to 4 corners on a 4 x 4 grid, at every point of the grid, one\n\
                 beyond it and half way between: portion 0 those of up to 3 corners, split into rings\n\
                 and polygons in every way, and those of 4 corners in one ring; portion k, from 1 to\n\
                 16, those of 4 corners of which the first is at place k, split in every way"
            }
            Mode::Random => {
                "generated plans with degenerate rings, far outlines, many rings, up to 20,000\n\
                 corners, and coordinates at the ends of the range and beyond; a portion has a seed\n\
                 of its own, the seed plus its number"
            }
            Mode::Largest => {
                "plans of 1,048,576 corners, one of seven a portion, and corrections of each"
            }
            Mode::Moves => {
                "moves and undos on generated plans: each answer, the tables after it, and the\n\
                 replies of the original prepared anew; seeds as for random"
            }
            Mode::Wkt => {
                "generated plans as Well-Known Text in several spellings: the tables read, and the\n\
                 replies of both over these; seeds as for random"
            }
            Mode::Rules => {
                "the original against document 01's rules (tests/plans), without the engine; seeds\n\
                 as for random"
            }
        }
    }

    /// The portions that are compared if none are named: a few minutes in all, or the long run.
    pub fn portions(self, long: bool) -> Range<usize> {
        match (self, long) {
            (Mode::Small, false) => 0..1,
            (Mode::Small, true) => 0..1 + small::PLACES,
            (Mode::Random, false) => 0..3,
            (Mode::Random, true) => 0..60,
            (Mode::Largest, false) => 1..3,
            (Mode::Largest, true) => 0..LARGEST.len(),
            (Mode::Moves, false) => 0..2,
            (Mode::Moves, true) => 0..40,
            (Mode::Wkt, false) => 0..1,
            (Mode::Wkt, true) => 0..40,
            (Mode::Rules, false) => 0..1,
            (Mode::Rules, true) => 0..20,
        }
    }

    /// Whether there is a portion of this number. There is no end to those that depend on a seed.
    pub fn has_portion(self, number: usize) -> bool {
        let listed = matches!(self, Mode::Small | Mode::Largest);
        !listed || self.portions(true).contains(&number)
    }

    /// The kinds of plans of which each class of replies has to come up. Well-Known Text has lists alone.
    fn counted_kinds(self) -> &'static [Kind] {
        match self {
            Mode::Small | Mode::Largest => &[],
            Mode::Wkt => &[Kind::List],
            Mode::Random | Mode::Moves | Mode::Rules => &[Kind::List, Kind::Tree],
        }
    }

    /// What came up too seldom in a whole run of it.
    pub fn lacks(self, tally: &Tally) -> Vec<String> {
        let mut lacks = Vec::new();
        for &kind in self.counted_kinds() {
            let rarest = tally.classes.rarest(kind);
            if rarest < OFTEN {
                lacks.push(format!(
                    "{kind:?}: a class of ray and reply came up {rarest} times"
                ));
            }
        }
        if self == Mode::Moves {
            for number in CORRECTION_ANSWERS {
                let count = tally.corrections.get(&number).copied().unwrap_or_default();
                if count < OFTEN {
                    lacks.push(format!("corrections were answered {number} {count} times"));
                }
            }
        }
        lacks
    }
}

/// A case that differs, and how.
pub struct Failure {
    pub name: String,
    pub session: Session,
    pub difference: String,
}

/// Compares a session in a part of the comparison.
pub fn compare(
    engine: &dyn Engine,
    mode: Mode,
    session: &Session,
    tally: &mut Tally,
) -> Result<(), String> {
    match mode {
        Mode::Rules => lookups::compare_rules(&session.case, tally),
        Mode::Wkt => texts::compare(engine, &session.case, tally),
        _ if session.calls.is_empty() => lookups::compare(engine, &session.case, tally),
        _ => moves::compare(engine, session, tally),
    }
}

/// A portion that is being compared.
pub struct Portion<'a> {
    pub engine: &'a dyn Engine,
    pub mode: Mode,
    pub number: usize,
    pub seed: u64,
    pub tally: Tally,
}

impl<'a> Portion<'a> {
    pub fn new(engine: &'a dyn Engine, mode: Mode, number: usize, seed: u64) -> Portion<'a> {
        Portion {
            engine,
            mode,
            number,
            seed,
            tally: Tally::default(),
        }
    }

    /// Compares the whole portion, to the first difference.
    pub fn run(&mut self) -> Result<(), Box<Failure>> {
        self.run_some(usize::MAX)
    }

    /// Compares so many of the portion's sessions.
    pub fn run_some(&mut self, most: usize) -> Result<(), Box<Failure>> {
        let mut progress = Progress::new();
        for (place, session) in self.sessions().enumerate().take(most) {
            let compared = compare(self.engine, self.mode, &session, &mut self.tally);
            progress.show(self.mode, self.number, &self.tally);
            if let Err(difference) = compared {
                let name = self.name(place);
                return Err(Box::new(Failure {
                    name,
                    session,
                    difference,
                }));
            }
        }
        Ok(())
    }

    /// The name of the session at a place of this portion.
    fn name(&self, place: usize) -> String {
        let (mode, number, seed) = (self.mode.name(), self.number, self.seed);
        format!("{mode}, portion {number}, seed {seed}, plan {place}")
    }

    /// The sessions of this portion, in turn.
    fn sessions(&self) -> Box<dyn Iterator<Item = Session>> {
        let seed = self.seed.wrapping_add(self.number as u64);
        match self.mode {
            Mode::Small => {
                let window = small::window();
                Box::new(small_plans(self.number).map(move |plan| {
                    let queries = window.clone();
                    Session::of(Case { plan, queries })
                }))
            }
            Mode::Random => Box::new((0..RANDOM_PLANS).map(move |number| {
                let size = every(number, LARGER_EVERY, LARGER_SIZE, RANDOM_SIZE);
                Session::of(generate::case(seed, number, size, RANDOM_POINTS))
            })),
            Mode::Moves => Box::new((0..SESSIONS).map(move |number| {
                let larger = LARGER_SESSION_SIZE;
                let size = every(number, LARGER_SESSION_EVERY, larger, SESSION_SIZE);
                sessions::session(seed, number, size, CORRECTIONS, POINTS_AFTER)
            })),
            Mode::Wkt => Box::new((0..WKT_PLANS).map(move |number| {
                Session::of(generate::case(seed, number, WKT_SIZE, WKT_POINTS))
            })),
            Mode::Rules => Box::new((0..RULED_PLANS).map(move |number| {
                Session::of(generate::case(seed, number, RANDOM_SIZE, RULED_POINTS))
            })),
            Mode::Largest => Box::new(largest_sessions(self.seed, self.number).into_iter()),
        }
    }
}

/// The larger size once in so many numbers.
fn every(number: usize, count: usize, larger: Size, size: Size) -> Size {
    if number % count == count - 1 {
        larger
    } else {
        size
    }
}

/// The plans of a portion of the small grid.
fn small_plans(portion: usize) -> Box<dyn Iterator<Item = Plan>> {
    if portion > 0 {
        let lists = small::corner_lists_from(portion - 1, 4);
        return Box::new(lists.flat_map(|corners| small::splits(&corners)));
    }
    let with_empty_ring = |plan: Plan| [small::with_empty_ring(plan.clone()), plan];
    let lists = (0..4).flat_map(small::corner_lists);
    let split = lists.flat_map(|corners| small::splits(&corners));
    let unsplit = small::corner_lists(4).flat_map(|corners| small::unsplit(&corners));
    Box::new(split.flat_map(with_empty_ring).chain(unsplit))
}

/// A plan at the ceilings: its points, then some corrections.
fn largest_sessions(seed: u64, portion: usize) -> [Session; 2] {
    let largest = &LARGEST[portion % LARGEST.len()];
    let mut random = Random::new(seed, portion as u64);
    let plan = largest.plan(&mut random);
    let queries = points::queries(&mut random, &plan, largest.points);
    let corrected = sessions::session_of(
        &mut random,
        plan.clone(),
        CORRECTIONS_OF_LARGEST,
        POINTS_AFTER_OF_LARGEST,
    );
    [Session::of(Case { plan, queries }), corrected]
}

/// Shows on standard error, every few seconds, how far a portion is.
struct Progress {
    next: Instant,
}

const SHOWN_EVERY: Duration = Duration::from_secs(5);

impl Progress {
    fn new() -> Progress {
        Progress {
            next: Instant::now() + SHOWN_EVERY,
        }
    }

    fn show(&mut self, mode: Mode, portion: usize, tally: &Tally) {
        if Instant::now() >= self.next {
            eprintln!("compare: {}, portion {portion}: {tally}", mode.name());
            self.next = Instant::now() + SHOWN_EVERY;
        }
    }
}
