//! The stored samples are those that the original's replies and document 01 give today.

use differential::samples;
use std::collections::BTreeMap;
use std::fs;
use std::path::PathBuf;

fn folder() -> PathBuf {
    PathBuf::from(env!("CARGO_MANIFEST_DIR")).join("../samples")
}

#[test]
fn stored_samples_are_as_generated() {
    let stored = fs::read_dir(folder()).expect("tests/samples is there");
    let mut rest: BTreeMap<String, Vec<u8>> = stored
        .map(|entry| {
            let path = entry.expect("a file of tests/samples").path();
            let name = path
                .file_name()
                .expect("it has a name")
                .to_string_lossy()
                .into_owned();
            (name, fs::read(&path).expect("it can be read"))
        })
        .collect();
    for (name, content) in samples::files() {
        assert!(rest.remove(&name) == Some(content.into_bytes()), "{name}");
    }
    assert!(rest.is_empty(), "no sample has {:?}", rest.keys());
}

#[test]
fn the_worked_example_is_document_01s() {
    let samples = samples::samples();
    let example = samples
        .iter()
        .find(|sample| sample.name == "worked_example")
        .expect("there is one");
    let input = "plan list\nouter\nat 0 0\nat 10 0\nat 10 10\nat 0 10\nhole\nat 4 4\nat 6 4\nat 6 6\nat 4 6\ncoin 5 5\ncoin 4 5\ncoin 1 5\n";
    let output = "coin 5 5 outside\ncoin 4 5 boundary\ncoin 1 5 inside\n";
    assert_eq!(example.input, input.replace(' ', "\t"));
    assert_eq!(example.output, output.replace(' ', "\t"));
}
