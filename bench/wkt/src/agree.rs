//! Holds GEOS and the library to each other, on texts of generated plans: nobody here wrote GEOS.

use crate::geos::Geos;
use capi::exports::Handed;
use capi::reader::LONGEST;
use capi::wkt::writer::{spellings, writable};
use capi::wkt::{read_plan, write_wkt};
use plans::generate::{self, SEED, Size};
use plans::plan::{Plan, Polygon, Ring, within};
use plans::random::Random;
use std::ffi::CString;

const PLANS: usize = 2_000;

const SIZE: Size = Size {
    corners: 200,
    rings: 40,
};

/// The largest size up to which doubles hold every whole number.
const EXACT: i64 = 1 << 53;

/// The bytes as GEOS takes them.
pub fn ended(text: &[u8]) -> CString {
    CString::new(text).expect("no text has a byte 0")
}

/// The text that the library writes of a plan.
pub fn written(plan: &Plan) -> Vec<u8> {
    let mut output = vec![0; LONGEST];
    let writing = write_wkt(Handed::of(plan), &mut output);
    assert_eq!(writing.refusal, 0, "the plan is written");
    output.truncate(writing.length as usize);
    output
}

/// What GEOS can hold of a plan: rings of three corners at least, and numbers that are exact as doubles.
fn common(plan: &Plan) -> Plan {
    let holds = |ring: &Ring| {
        let exact = |&(x, y): &(i64, i64)| within(x, EXACT) && within(y, EXACT);
        ring.len() >= 3 && ring.iter().all(exact)
    };
    let polygon = |rings: Polygon| -> Polygon { rings.into_iter().filter(holds).collect() };
    let polygons = writable(plan).polygons().into_iter().map(polygon);
    let polygons: Vec<Polygon> = polygons.filter(|rings| !rings.is_empty()).collect();
    Plan::list(&polygons)
}

/// Asserts that both read the same plan from each spelling of generated plans, that GEOS reads what the library writes and the other way
/// round, and that they write the same bytes. Gives the number of texts.
pub fn assert_agreement(geos: &Geos) -> usize {
    let mut texts = 0;
    for number in 0..PLANS {
        let mut random = Random::new(SEED, number as u64);
        let plan = common(&generate::plan(&mut random, number, SIZE));
        for text in spellings(&mut random, &plan) {
            let theirs = geos.read(&ended(&text)).expect("GEOS reads it").plan();
            assert_eq!(read_plan(&text), Ok(theirs), "{}", text.escape_ascii());
            texts += 1;
        }
        assert_same_writing(geos, &plan);
    }
    texts
}

/// Asserts that GEOS reads what the library writes, and writes it so again.
fn assert_same_writing(geos: &Geos, plan: &Plan) {
    let ours = written(plan);
    let geometry = geos.read(&ended(&ours)).expect("GEOS reads what we write");
    assert_eq!(geometry.plan(), *plan, "{}", ours.escape_ascii());
    let theirs = geometry.write();
    assert_eq!(
        theirs.bytes().escape_ascii().to_string(),
        ours.escape_ascii().to_string()
    );
    assert_eq!(read_plan(theirs.bytes()).as_ref(), Ok(plan));
}
