//! The rules give the replies that document 01 states.

use plans::named::named_cases;
use plans::plan::Query;
use plans::reference;

#[test]
fn the_rules_give_the_stated_replies() {
    for case in named_cases() {
        let (queries, stated): (Vec<Query>, Vec<u8>) = case.stated.iter().copied().unzip();
        let name = case.name;
        assert_eq!(reference::replies(&case.plan, &queries), stated, "{name}");
    }
}
