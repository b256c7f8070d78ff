//! Well-Known Texts of every sort, read into lent tables, against the reader that is written from document 02's R-1 alone: every text over a
//! few bytes, all texts one byte away from an example, generated and damaged texts, any bytes, and the largest plans.

use capi::damage::one_byte_away;
use capi::examples::WKT;
use capi::lent::{Trials, assert_starts_with};
use capi::reader::LONGEST;
use capi::reading::{Judged, due, needed};
use capi::wkt::damage::WAYS;
use capi::wkt::reader::{Refusal, begins, is_text, opened};
use capi::wkt::writer::{spellings, writable};
use capi::wkt::{judged, numbers, read_wkt};
use plans::generate::{self, SEED, Size};
use plans::plan::Plan;
use plans::random::Random;
use std::collections::BTreeMap;

/// Every text that goes on from a start by up to so many of some pieces.
struct Exhausted {
    pieces: &'static [&'static str],
    /// Tables with room for all of them.
    corners: [i64; 32],
    lengths: [usize; 16],
    counts: [usize; 16],
    /// How often each refusal came up; 0 is none.
    answers: BTreeMap<u64, usize>,
}

/// What the tables hold before a text is read.
const UNREAD: usize = 77_777;

impl Exhausted {
    /// Reads them all.
    fn of(start: &str, pieces: &'static [&'static str], most: usize) -> Exhausted {
        let mut all = Exhausted {
            pieces,
            corners: [UNREAD as i64; 32],
            lengths: [UNREAD; 16],
            counts: [UNREAD; 16],
            answers: BTreeMap::new(),
        };
        assert!(begins(start.as_bytes()));
        all.go_on(&mut start.as_bytes().to_vec(), None, most);
        all
    }

    /// Reads a text and all that go on from it. `off` is the place at which it leaves the grammar, and then each of these does.
    fn go_on(&mut self, text: &mut Vec<u8>, off: Option<usize>, most: usize) {
        self.read(text, off);
        if most == 0 {
            return;
        }
        let length = text.len();
        for piece in self.pieces {
            text.extend_from_slice(piece.as_bytes());
            let leaves = |&place: &usize| !begins(&text[..=place]);
            let off = off.or_else(|| (length..text.len()).find(leaves));
            self.go_on(text, off, most - 1);
            text.truncate(length);
        }
    }

    fn read(&mut self, text: &[u8], off: Option<usize>) {
        let judged: Judged = match off {
            None if is_text(text) => opened(text),
            off => Err(Refusal::OffGrammar(off.unwrap_or(text.len()))),
        }
        .map_err(numbers);
        let room = [self.corners.len(), self.lengths.len(), self.counts.len()];
        let answer = due(&judged, room);
        let given = read_wkt(text, &mut self.corners, &mut self.lengths, &mut self.counts);
        assert_eq!(given, answer, "{}", text.escape_ascii());
        let plan = judged.unwrap_or(Plan::list(&[]));
        assert_starts_with(&self.corners, &plan.coordinates, UNREAD as i64);
        assert_starts_with(&self.lengths, &plan.ring_lengths, UNREAD);
        assert_starts_with(&self.counts, &plan.ring_counts, UNREAD);
        if answer.refusal == 0 {
            self.corners.fill(UNREAD as i64);
            self.lengths.fill(UNREAD);
            self.counts.fill(UNREAD);
        }
        *self.answers.entry(answer.refusal).or_default() += 1;
    }

    /// That so many texts were read, so many got 22, and so many texts there are.
    fn assert_counts(&self, read: usize, unclosed: usize, all: usize) {
        let count = |refusal| self.answers.get(&refusal).copied().unwrap_or_default();
        let total: usize = self.answers.values().sum();
        assert_eq!((count(0), count(22), total), (read, unclosed, all));
    }
}

/// The bytes of a ring.
const BYTES: &[&str] = &["(", ")", ",", " ", "0", "1", "-"];

/// Of the grammar are `(x y))` with one digit each (4), with two bytes for x or for y (12), and with one space more in one of six places (24):
/// each has one position.
#[test]
fn every_text_of_seven_bytes_behind_polygon() {
    Exhausted::of("POLYGON(", BYTES, 7).assert_counts(0, 40, 960_800);
}

/// Of the grammar are, behind a comma, `x y))` as above, with a space more in one of five places: 36 in all, of which 6 come back to 0 0. Behind
/// a second position, brackets and up to four spaces (35), digits more and then these (128), and a third position (4).
#[test]
fn every_text_of_six_bytes_behind_a_position() {
    Exhausted::of("POLYGON((0 0,", BYTES, 6).assert_counts(6, 30, 137_257);
    Exhausted::of("POLYGON((0 -1, 0 -1", BYTES, 6).assert_counts(35, 132, 137_257);
}

/// The shortest end of the grammar, `EMPTY)`, has six bytes.
#[test]
fn every_text_of_five_bytes_behind_multipolygon() {
    const WITH_E: &[&str] = &["(", ")", ",", " ", "0", "1", "-", "E"];
    Exhausted::of("MULTIPOLYGON(", WITH_E, 5).assert_counts(0, 0, 37_449);
}

/// Words and members in every order. Of the grammar are, with as many spaces as are left, up to three `EMPTY` (57), one polygon of one ring (21
/// of each) or of two (4), and an `EMPTY` before or behind one (2 of each); and behind the words, `POLYGON` with `EMPTY` (4) or a polygon (15),
/// `MULTIPOLYGON` with `EMPTY` (3), or with that or a polygon in brackets (5 of each).
#[test]
fn every_text_of_six_pieces() {
    const MEMBERS: &[&str] = &["(", ")", ",", " ", "EMPTY", "(0 0,0 0)", "(1 1,0 0)"];
    Exhausted::of("MULTIPOLYGON(", MEMBERS, 6).assert_counts(81, 26, 137_257);
    const WORDS: &[&str] = &["POLYGON", "MULTI", "EMPTY", " ", "(", ")", "((0 0,0 0))"];
    Exhausted::of("", WORDS, 6).assert_counts(32, 0, 137_257);
}

/// All texts one byte away from an example, and the example cut at each place.
#[test]
fn a_byte_changed_put_in_or_left_out() {
    let mut trials = Trials::new(read_wkt);
    for example in WKT {
        let found = judged(example);
        trials.read_with_all_room(example, &found);
        let room = found.as_ref().map(needed).expect("a plan");
        trials.forbid = false;
        let cut = (0..example.len()).map(|end| example[..end].to_vec());
        for text in cut.chain(one_byte_away(example)) {
            trials.read(&text, &judged(&text), room);
        }
    }
    for (refusal, table, least) in [(0, 0, 300), (21, 0, 50_000), (22, 0, 100), (11, 1, 1)] {
        let count = trials.count(refusal, table);
        assert!(count >= least, "{refusal} with {table}: {count} times");
    }
}

const PLANS: usize = 300;

/// Plans small enough for damage to be felt.
const SIZE: Size = Size {
    corners: 60,
    rings: 12,
};

/// Every so many plans one is larger: a number that shares no divisor with that of the families.
const LARGER_EVERY: usize = 25;
const LARGER_SIZE: Size = Size {
    corners: 600,
    rings: 60,
};

/// Each spelling of a plan with room and without, and then damaged in one of the ways.
#[test]
fn generated_and_damaged_texts() {
    let mut trials = Trials::new(read_wkt);
    for number in 0..PLANS {
        let random = &mut Random::new(SEED, number as u64);
        let larger = number.is_multiple_of(LARGER_EVERY);
        let size = if larger { LARGER_SIZE } else { SIZE };
        let plan = writable(&generate::plan(random, number, size));
        for text in spellings(random, &plan) {
            trials.read_with_all_room(&text, &Ok(plan.clone()));
            let damaged = random.pick(&WAYS)(random, &text);
            trials.read_with_all_room(&damaged, &judged(&damaged));
        }
    }
    for answer in [(0, 0), (21, 0), (22, 0), (11, 1), (11, 2), (11, 3)] {
        let count = trials.count(answer.0, answer.1);
        assert!(count > PLANS / 2, "{answer:?}: {count} times");
    }
}

#[test]
fn any_bytes() {
    let mut trials = Trials::new(read_wkt);
    for number in 0..3_000 {
        let random = &mut Random::new(SEED, number);
        let start = random.pick(&["", "POLYGON", "POLYGON((0 0", "MULTIPOLYGON("]);
        let mut text = start.as_bytes().to_vec();
        text.extend((0..random.below(60)).map(|_| random.any() as u8));
        trials.read_with_all_room(&text, &judged(&text));
    }
    assert!(trials.count(21, 0) > 3_000);
}

/// The most corners, rings and polygons that 65,536 bytes can say, just with room for them and without; and one more of each, which is too
/// long.
#[test]
fn the_largest_plans() {
    let mut trials = Trials::new(read_wkt);
    for (start, piece, end, most) in [
        ("POLYGON((0 0", ",0 0", "))", [2 * 16_380, 1, 1]),
        (
            "POLYGON((0 0,0 0)",
            ",(0 0,0 0)",
            ")",
            [2 * 6_552, 6_552, 1],
        ),
        (
            "MULTIPOLYGON(((0 0,0 0))",
            ",((0 0,0 0))",
            ")",
            [2 * 5_460, 5_460, 5_460],
        ),
        ("MULTIPOLYGON(EMPTY", ",EMPTY", ")", [0, 0, 0]),
    ] {
        let times = (LONGEST - start.len() - end.len()) / piece.len();
        let text = [start, &piece.repeat(times), end].concat().into_bytes();
        let found = judged(&text);
        assert_eq!(found.as_ref().map(needed), Ok(most), "{start}");
        trials.read_with_all_room(&text, &found);
        let longer = [start, &piece.repeat(times + 1), end].concat();
        trials.read_with_all_room(longer.as_bytes(), &Err((1, 0)));
    }
}
