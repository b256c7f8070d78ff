//! The quick start of both READMEs is the example `quick_start`, which is run here. What else they show of the crate is the same in both, and is run
//! as a documented example.

const EXAMPLE: &str = include_str!("../examples/quick_start.rs");

mod quick_start {
    include!("../examples/quick_start.rs");

    #[test]
    fn it_runs() {
        assert_eq!(main(), Ok(()));
    }
}

/// The blocks of Rust that use this crate, as they stand in a document.
fn blocks(document: &str) -> Vec<&str> {
    let fenced = document.split("```rust\n").skip(1);
    fenced
        .filter_map(|rest| rest.split("```").next())
        .filter(|block| block.contains("findspot::"))
        .collect()
}

#[test]
fn both_readmes_show_it() {
    let crates_own = blocks(include_str!("../README.md"));
    let repositorys = blocks(include_str!("../../../README.md"));
    assert_eq!(crates_own.first(), Some(&EXAMPLE));
    assert_eq!(repositorys, crates_own);
}
