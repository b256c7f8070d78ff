//! Plans from text: what is written is read, and a text's plan prepared and the text itself are answered and refused alike. Texts are
//! generated, then damaged.

mod common;

use common::{Random, plan, point, text_of};
use findspot::{MAX_TEXT, Plan, Point, Prepared, Refusal, line, locate_text};

const PLANS: u64 = 800;

/// What a byte is replaced by.
const BYTES: &[u8] = b"0123456789-+ \t\n\rplanlistreouterholenodeat";

/// What a field is replaced by.
const FIELDS: &[&str] = &[
    "",
    "plan",
    "list",
    "tree",
    "outer",
    "hole",
    "node",
    "at",
    "Plan",
    "0",
    "-0",
    "00",
    "+1",
    "-1",
    "-",
    "7",
    "9223372036854775807",
    "9223372036854775808",
    "-9223372036854775808",
    "-9223372036854775809",
    "1099511627776",
    "1099511627777",
    "99999999999999999999",
    "coin",
    "half",
];

/// Asserts that the plan of a text, prepared, and the text itself are answered alike; gives whether the text is accepted.
fn assert_answered_alike(random: &mut Random, text: &[u8]) -> bool {
    let read = Plan::from_text(text);
    let prepare = |plan: &Plan| Prepared::new(plan).expect("a text's plan is accepted");
    let prepared = read.as_ref().map(prepare).map_err(|&refusal| refusal);
    let corners = prepared.as_ref().map_or(&[][..], Prepared::corners);
    for _ in 0..6 {
        let p = point(random, corners);
        let due = prepared.as_ref().map(|prepared| prepared.locate(p));
        let given = locate_text(text, p);
        assert_eq!(
            given.as_ref(),
            due.as_ref().map_err(|refusal| *refusal),
            "{p:?} of {}",
            text.escape_ascii()
        );
    }
    read.is_ok()
}

fn damaged(random: &mut Random, text: &[u8]) -> Vec<u8> {
    let place = random.below(text.len());
    let (before, after) = text.split_at(place);
    match random.below(6) {
        0 => [before, &[random.pick(BYTES)], &after[1..]].concat(),
        1 => [before, &[random.pick(BYTES)], after].concat(),
        2 => [before, &after[1..]].concat(),
        3 => before.to_vec(),
        4 => swapped_lines(random, text),
        _ => changed_field(random, text),
    }
}

fn swapped_lines(random: &mut Random, text: &[u8]) -> Vec<u8> {
    let mut lines: Vec<&[u8]> = text.split_inclusive(|&byte| byte == b'\n').collect();
    let (first, second) = (random.below(lines.len()), random.below(lines.len()));
    lines.swap(first, second);
    lines.concat()
}

fn changed_field(random: &mut Random, text: &[u8]) -> Vec<u8> {
    let is_end = |byte: &u8| matches!(byte, b'\t' | b'\n');
    let mut fields: Vec<&[u8]> = text.split_inclusive(is_end).collect();
    let place = random.below(fields.len());
    let end = fields[place].last().copied().unwrap_or(b'\n');
    let changed = [random.pick(FIELDS).as_bytes(), &[end]].concat();
    fields[place] = &changed;
    fields.concat()
}

#[test]
fn a_plan_written_and_read_is_the_plan() {
    for seed in 0..PLANS {
        let random = &mut Random::new(seed);
        let plan = plan(random);
        let text = text_of(&plan, random.below(2) == 0);
        if text.len() <= MAX_TEXT {
            assert_eq!(Plan::from_text(&text).as_ref(), Ok(&plan));
            assert!(assert_answered_alike(random, &text));
        } else {
            assert_eq!(Plan::from_text(&text), Err(Refusal::TextTooLong));
        }
    }
}

#[test]
fn damaged_texts_and_their_plans_are_answered_alike() {
    let (mut accepted, mut refused) = (0, 0);
    for seed in 0..PLANS {
        let random = &mut Random::new(seed);
        let text = text_of(&plan(random), random.below(2) == 0);
        for _ in 0..8 {
            let mut damaged_text = damaged(random, &text);
            if random.below(4) == 0 && !damaged_text.is_empty() {
                damaged_text = damaged(random, &damaged_text);
            }
            match assert_answered_alike(random, &damaged_text) {
                true => accepted += 1,
                false => refused += 1,
            }
        }
    }
    assert!(accepted > 500 && refused > 500, "{accepted}, {refused}");
}

#[test]
fn a_line_is_a_part_of_its_text() {
    for seed in 0..PLANS {
        let random = &mut Random::new(seed);
        let text = text_of(&plan(random), true);
        let text = damaged(random, &text);
        let pieces: Vec<&[u8]> = text.split(|&byte| byte == b'\n').collect();
        for (number, piece) in (1..).zip(&pieces).step_by(pieces.len() / 16 + 1) {
            let line = line(&text, number);
            assert_eq!(&line, piece);
            assert_eq!(line.as_ptr(), piece.as_ptr(), "line {number}");
        }
        for number in [0, pieces.len() + 1, usize::MAX] {
            assert!(line(&text, number).is_empty());
        }
    }
}

#[test]
fn the_line_that_is_refused_is_the_first_that_breaks_the_format() {
    let good = "plan\nouter\nat\t1\t2\nat\t3\t4\nhole\nat\t5\t6\n";
    let lines: Vec<&str> = good.lines().collect();
    for bad in [
        "",
        "plan",
        "at\t1",
        "at\t1\t2\t3",
        "at\t1\t",
        "node",
        "outer ",
        "outer\t",
        "AT\t1\t2",
        "at\t1\t2\r",
    ] {
        for place in 0..=lines.len() {
            let mut lines = lines.clone();
            lines.insert(place, bad);
            let text = lines.join("\n") + "\n";
            let line = if place == 0 && bad == "plan" {
                2
            } else {
                place + 1
            };
            assert_eq!(
                Plan::from_text(text.as_bytes()),
                Err(Refusal::BadLine(line))
            );
        }
    }
    let unended = good.trim_end();
    let refusal = Refusal::BadLine(lines.len());
    assert_eq!(Plan::from_text(unended.as_bytes()), Err(refusal));
    assert_eq!(
        locate_text(unended.as_bytes(), Point::default()),
        Err(refusal)
    );
}
