//! Damaged input through every export, in guarded memory, and that the guard sees a stray read and a call that does not end.

use capi::damaged::{SORTS, Trials};
use capi::guard::{self, Guarded, Side};
use plans::generate::SEED;
use std::hint::black_box;
use std::process::{Command, Output};
use std::{env, ptr};

/// Trials of each sort. The program `damaged` makes a million.
const TRIALS: usize = 5_000;

/// No thousand trials take so many seconds.
const SECONDS: u32 = 120;

/// The answers of each call that have to come up.
const ANSWERS: [(&str, &[i64]); 8] = [
    ("locate", &[0, 1, 2, -15]),
    ("locate_by_rings", &[0, 1, 2, -15]),
    ("first_not_outside", &[-1, 0, 3, 4, 15]),
    ("move", &[0, 5, 6, 12, 13, 15]),
    ("undo", &[0, 12, 14, 15]),
    ("prepare", &[0, 3, 4, 11, 15]),
    ("write_wkt", &[0, 3, 4, 11, 15, 22]),
    ("locate_text", &[0, 1, 2, -1, -2]),
];

/// The calls on prepared plans, and what has to decide the answer of each at times: see `capi::due`.
const CALLS: [&str; 5] = [
    "locate",
    "locate_by_rings",
    "first_not_outside",
    "move",
    "undo",
];
const GROUNDS: [&str; 4] = ["settled", "short", "sound", "open"];

#[test]
fn damaged_input_is_answered_and_no_refusal_writes() {
    guard::watch(SECONDS);
    let mut trials = Trials::new(SEED);
    for sort in SORTS {
        for number in 0..TRIALS {
            guard::trying(number, SECONDS);
            trials.run(sort, number);
        }
    }
    for (call, answers) in ANSWERS {
        for &answer in answers {
            let count = trials.answers.of(call, answer);
            assert!(count > 0, "{call} was never answered {answer}");
        }
    }
    for call in CALLS {
        for ground in GROUNDS {
            let count = trials.answers.grounds.get(&(call, ground));
            let count = count.copied().unwrap_or_default();
            assert!(count > 200, "{call}: {ground} decided {count} times");
        }
    }
}

/// What a test of this file, left out otherwise, ends with in a process of its own.
fn run_alone(test: &str) -> Output {
    let program = env::current_exe().expect("the program has a name");
    let mut command = Command::new(program);
    command.args(["--exact", test, "--ignored", "--nocapture"]);
    command.output().expect("the program starts")
}

fn assert_ended(test: &str, message: &str) {
    let output = run_alone(test);
    let shown = String::from_utf8_lossy(&output.stderr).into_owned();
    assert_eq!(output.status.code(), Some(3), "{shown}");
    assert!(shown.contains(message), "{shown}");
}

#[test]
fn the_guard_ends_a_stray_read_and_an_endless_call() {
    assert_ended("read_behind", "stray read or write in trial");
    assert_ended("read_before", "stray read or write in trial");
    assert_ended("write_what_is_shown", "stray read or write in trial");
    assert_ended("do_not_end", "no end of trial");
}

#[test]
#[ignore = "ends the process"]
fn read_behind() {
    guard::watch(SECONDS);
    let mut guarded = Guarded::new(8);
    let entries: &[u64] = guarded.hold(&[1, 2, 3], Side::After);
    // SAFETY: there is none: the read is to be caught.
    black_box(unsafe { ptr::read_volatile(entries.as_ptr().add(3)) });
}

#[test]
#[ignore = "ends the process"]
fn read_before() {
    guard::watch(SECONDS);
    let mut guarded = Guarded::new(8);
    let entries: &[u64] = guarded.hold(&[1, 2, 3], Side::Before);
    // SAFETY: there is none: the read is to be caught.
    black_box(unsafe { ptr::read_volatile(entries.as_ptr().sub(1)) });
}

#[test]
#[ignore = "ends the process"]
fn write_what_is_shown() {
    guard::watch(SECONDS);
    let mut guarded = Guarded::new(8);
    guarded.hold(&[1u64, 2, 3], Side::After);
    guarded.forbid_writing(true);
    guarded.as_mut_slice()[1] = 5;
}

#[test]
#[ignore = "ends the process"]
fn do_not_end() {
    guard::watch(1);
    loop {
        black_box(());
    }
}
