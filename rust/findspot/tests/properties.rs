//! What holds of every plan: import and edit reply alike, and corrections leave a plan as good as newly prepared.

mod common;

use common::{Random, assert_alike, new_place, plan, point};
use findspot::{Location, MAX_COORD, Plan, Point, Prepared, Rect, Refusal};
use std::collections::HashSet;
use std::thread;

/// Plans of each test.
const PLANS: u64 = 1_500;

/// Plans that are corrected.
const CORRECTED: u64 = 300;

/// Moves and undos of each plan.
const CORRECTIONS: usize = 24;

fn prepared(random: &mut Random, moves: usize) -> Prepared {
    Prepared::with_undo(&plan(random), moves).expect("generated plans are accepted")
}

#[test]
fn import_and_edit_reply_alike() {
    let mut places = HashSet::new();
    for seed in 0..PLANS {
        let random = &mut Random::new(seed);
        let prepared = prepared(random, 0);
        assert_alike(random, &prepared, &prepared, 40);
        places.insert(prepared.locate(point(random, prepared.corners())));
    }
    assert_eq!(places.len(), 3, "each place comes up: {places:?}");
}

#[test]
fn the_plan_is_kept_as_it_was_handed_over() {
    for seed in 0..PLANS {
        let plan = plan(&mut Random::new(seed));
        let prepared = Prepared::new(&plan).expect("generated plans are accepted");
        assert_eq!(prepared.plan(), plan);
        assert_eq!(prepared.kind(), plan.kind());
        assert_eq!(prepared.corners(), plan.corners());
        let lengths: Vec<usize> = prepared.rings().map(<[Point]>::len).collect();
        assert_eq!(lengths, plan.ring_lengths());
        assert_eq!(
            prepared.rings().collect::<Vec<_>>().concat(),
            plan.corners()
        );
        assert_eq!(prepared.extent(), extent_of(plan.corners()));
    }
}

/// The least and greatest x and y.
fn extent_of(corners: &[Point]) -> Option<Rect> {
    let xs = || corners.iter().map(|corner| corner.x);
    let ys = || corners.iter().map(|corner| corner.y);
    Some(Rect {
        min: Point::new(xs().min()?, ys().min()?),
        max: Point::new(xs().max()?, ys().max()?),
    })
}

#[test]
fn the_first_point_is_the_earliest_that_is_not_outside() {
    let mut found = 0;
    for seed in 0..PLANS {
        let random = &mut Random::new(seed);
        let prepared = prepared(random, 0);
        let count = random.below(30);
        let points: Vec<Point> = (0..count)
            .map(|_| point(random, prepared.corners()))
            .collect();
        let is_found = |&p: &Point| prepared.locate_by_rings(p) != Location::Outside;
        let due = points.iter().position(is_found);
        assert_eq!(prepared.first_not_outside(&points), Ok(due));
        found += u64::from(due.is_some_and(|place| place > 0));
    }
    assert!(
        found > PLANS / 20,
        "{found} lists begin with a point outside"
    );
}

/// The corners and the moves to undo, kept apart from the engine.
struct Book {
    corners: Vec<Point>,
    records: Vec<(usize, Point)>,
    room: usize,
}

impl Book {
    fn move_corner(&mut self, corner: usize, place: Point) -> Result<(), Refusal> {
        if corner >= self.corners.len() {
            return Err(Refusal::NoSuchCorner);
        }
        if !place.in_range() {
            return Err(Refusal::PlaceOutOfRange);
        }
        if self.records.len() == self.room {
            return Err(Refusal::UndoFull);
        }
        self.records.push((corner, self.corners[corner]));
        self.corners[corner] = place;
        Ok(())
    }

    fn undo(&mut self) -> Result<(), Refusal> {
        let (corner, place) = self.records.pop().ok_or(Refusal::NothingToUndo)?;
        self.corners[corner] = place;
        Ok(())
    }
}

/// One random correction of both, asserted to be answered alike; refused ones are asserted to change nothing.
fn correct(random: &mut Random, prepared: &mut Prepared, book: &mut Book) {
    let before = prepared.clone();
    let (answer, due) = if random.below(3) == 0 {
        (prepared.undo(), book.undo())
    } else {
        let corner = random.below(book.corners.len() + 1);
        let mut place = new_place(random, &book.corners);
        if random.below(8) == 0 {
            place.y = random.pick(&[MAX_COORD + 1, -MAX_COORD - 1, i64::MAX, i64::MIN]);
        }
        (
            prepared.move_corner(corner, place),
            book.move_corner(corner, place),
        )
    };
    assert_eq!(answer, due);
    assert!(
        due.is_ok() || *prepared == before,
        "a refusal changed something"
    );
    assert_eq!(prepared.corners(), book.corners);
    assert_eq!(prepared.undo_depth(), book.records.len());
}

#[test]
fn after_moves_and_undos_a_plan_is_as_good_as_newly_prepared() {
    let mut moves = 0;
    for seed in 0..CORRECTED {
        let random = &mut Random::new(seed);
        let room = random.pick(&[0, 1, 4, 100]);
        let mut prepared = prepared(random, room);
        let first = prepared.clone();
        let mut book = Book {
            corners: prepared.corners().to_vec(),
            records: Vec::new(),
            room,
        };
        for _ in 0..CORRECTIONS {
            correct(random, &mut prepared, &mut book);
            let anew = Prepared::new(&prepared.plan()).expect("corners stay in range");
            assert_eq!(prepared.extent(), anew.extent());
            assert_alike(random, &prepared, &anew, 4);
            if prepared.undo_depth() == 0 {
                assert!(prepared == first, "all is undone");
            }
        }
        moves += prepared.undo_depth();
        while prepared.undo_depth() > 0 {
            assert_eq!(prepared.undo(), Ok(()));
        }
        assert!(prepared == first, "all is undone");
        assert_eq!(prepared.undo(), Err(Refusal::NothingToUndo));
    }
    assert!(moves > 500, "{moves} moves were left to undo");
}

#[test]
fn prepared_plans_are_shared_by_threads() {
    fn is_shared<T: Send + Sync + 'static>() {}
    is_shared::<Prepared>();
    is_shared::<Plan>();
    is_shared::<Refusal>();

    let random = &mut Random::new(7);
    let prepared = prepared(random, 0);
    let points: Vec<Point> = (0..2_000)
        .map(|_| point(random, prepared.corners()))
        .collect();
    let ask = || {
        points
            .iter()
            .map(|&p| prepared.locate(p))
            .collect::<Vec<_>>()
    };
    let due = ask();
    thread::scope(|scope| {
        let threads: Vec<_> = (0..4).map(|_| scope.spawn(ask)).collect();
        for thread in threads {
            assert_eq!(thread.join().expect("a thread's replies"), due);
        }
    });
}
