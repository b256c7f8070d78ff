//! The second reader and the second writer of Well-Known Text against each other, without the library: each is written from document 02's
//! R-1 alone, and the reader is what 21's place is held to.

use capi::wkt::reader::{Refusal, begins, is_text, opened, read};
use capi::wkt::writer::{spellings, writable, write};
use plans::generate::{self, SEED, Size};
use plans::plan::Plan;
use plans::random::Random;

const PLANS: usize = 300;

const SIZE: Size = Size {
    corners: 60,
    rings: 12,
};

/// Generated plans that can be written, each with a stream of numbers.
fn plans() -> impl Iterator<Item = (Random, Plan)> {
    (0..PLANS).map(|number| {
        let mut random = Random::new(SEED, number as u64);
        let plan = writable(&generate::plan(&mut random, number, SIZE));
        (random, plan)
    })
}

#[test]
fn every_spelling_of_a_plan_is_read_as_that_plan() {
    for (mut random, plan) in plans() {
        for text in spellings(&mut random, &plan) {
            let shown = text.escape_ascii();
            assert_eq!(read(&text).as_ref(), Ok(&plan), "{shown}");
        }
    }
}

/// The longest text that is tried from its start to each of its bytes.
const LONG: usize = 400;

/// Each beginning of a text is one, and a text that ends early gets its length.
#[test]
fn every_part_of_a_text_from_its_start_on_begins_a_text() {
    for (mut random, plan) in plans() {
        let mut texts = spellings(&mut random, &plan);
        texts.retain(|text| text.len() < LONG);
        for text in texts {
            let last = text.iter().rposition(|&byte| byte != b' ');
            let last = last.expect("a text has a word");
            for end in 0..=text.len() {
                let part = &text[..end];
                assert!(begins(part), "{}", part.escape_ascii());
                assert_eq!(is_text(part), end > last, "{}", part.escape_ascii());
            }
            assert_eq!(read(&text[..last]), Err(Refusal::OffGrammar(last)));
        }
    }
}

/// Bytes to complete a beginning with, those first that end something.
const COMPLETING: &[u8] = b")01( EMPTYOLGNUI";

/// The most bytes that complete a beginning so: the rest of a word, two numbers and brackets.
const MOST_COMPLETING: usize = 60;

/// A text of the grammar that begins so.
fn completed(beginning: &[u8]) -> Option<Vec<u8>> {
    let mut text = beginning.to_vec();
    for _ in 0..MOST_COMPLETING {
        if is_text(&text) {
            return Some(text);
        }
        let longer = |&byte: &u8| [&text[..], &[byte]].concat();
        text = COMPLETING.iter().map(longer).find(|text| begins(text))?;
    }
    None
}

/// What is said to begin a text does: the text is found, and it can be taken apart.
#[test]
fn every_beginning_can_be_completed() {
    for (mut random, plan) in plans().step_by(10) {
        for text in spellings(&mut random, &plan) {
            let end = random.below(text.len() + 1);
            let mut beginning = text[..end].to_vec();
            beginning.extend((0..random.below(3)).map(|_| random.pick(COMPLETING)));
            if begins(&beginning) {
                let text = completed(&beginning);
                let text = text.unwrap_or_else(|| panic!("{}", beginning.escape_ascii()));
                assert!(matches!(opened(&text), Ok(_) | Err(Refusal::Unclosed)));
            }
        }
    }
}

/// R-1's example, and each sort of plan once, written down by hand.
#[test]
fn the_written_text_is_the_stated_one() {
    let ring = vec![(0, 0), (10, 0), (10, 10)];
    let hole = vec![(7, -2)];
    for (polygons, text) in [
        (vec![], "MULTIPOLYGON EMPTY"),
        (
            vec![vec![ring.clone()]],
            "MULTIPOLYGON (((0 0, 10 0, 10 10, 0 0)))",
        ),
        (
            vec![vec![ring.clone(), hole.clone()], vec![hole]],
            "MULTIPOLYGON (((0 0, 10 0, 10 10, 0 0), (7 -2, 7 -2)), ((7 -2, 7 -2)))",
        ),
        (
            vec![vec![vec![(i64::MIN, i64::MAX), (-1, 0)]]],
            "MULTIPOLYGON (((-9223372036854775808 9223372036854775807, -1 0, -9223372036854775808 9223372036854775807)))",
        ),
    ] {
        let written = write(&Plan::list(&polygons));
        assert_eq!(String::from_utf8_lossy(&written), text);
    }
}
