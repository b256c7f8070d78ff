//! The original gives the replies that document 01 states, and the stored text is the one that it
//! gives today; and the engine gives the original's replies to plans of other seeds.

use differential::{oracle, stored};
use inside::stored::compare;
use plans::generate::SEED;
use plans::named::named_cases;
use plans::plan::Query;

#[test]
fn the_original_gives_the_stated_replies() {
    for case in named_cases() {
        let (queries, stated): (Vec<Query>, Vec<u8>) = case.stated.iter().copied().unzip();
        let name = case.name;
        assert_eq!(oracle::replies(&case.plan, &queries), stated, "{name}");
    }
}

#[test]
fn stored_cases_are_those_of_the_seed() {
    let (text, _) = stored::text(SEED);
    assert!(text == include_str!("../../replies/stored.txt"));
}

#[test]
fn the_engine_agrees_on_fresh_plans() {
    for seed in 1..=5 {
        let (text, _) = stored::text(seed);
        let counts = compare(&text);
        assert_eq!(counts.plans, text.lines().count() - 1);
        assert!(counts.replies > counts.plans);
    }
}
