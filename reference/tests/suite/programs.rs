//! The comparison of programs finds nothing where nothing is wrong, and finds
//! what is.

use std::process::{Command, Output};

const COMPARE: &str = env!("CARGO_BIN_EXE_compare_program");
const PROGRAM: &str = env!("CARGO_BIN_EXE_program");

fn compare(command: &[&str]) -> Output {
    let mut compare = Command::new(COMPARE);
    compare.args(["--sheets", "8"]).args(command);
    compare.env("PROGRAM", PROGRAM);
    compare.output().expect("the comparison runs")
}

#[test]
fn the_fast_programs_differ_nowhere() {
    for calls in ["fast", "telling"] {
        let compared = compare(&[PROGRAM, calls]);
        let text = String::from_utf8_lossy(&compared.stdout);
        assert!(compared.status.success() && text.contains("; 0 differences"));
    }
}

/// Shell commands with that program, each with a fault.
const FAULTS: [&str; 5] = [
    // Too few bytes are read to see the byte after the longest sheet.
    "head -c 1153 | $PROGRAM fast",
    "$PROGRAM fast | sed s/stable/open/",
    "$PROGRAM fast; echo",
    "$PROGRAM fast; echo >&2",
    "$PROGRAM fast; false",
];

#[test]
fn each_fault_of_a_program_is_found() {
    for fault in FAULTS {
        let compared = compare(&["sh", "-c", fault]);
        let text = String::from_utf8_lossy(&compared.stdout);
        assert_eq!(compared.status.code(), Some(1), "{fault}");
        assert!(text.contains("expected: ") && !text.contains("; 0 differences"));
    }
}

/// What comes by one read is taken for all. Where the machine is busy all pieces
/// may be there by then, so there is more than one try.
#[test]
fn a_program_that_reads_once_is_found() {
    let once = "dd bs=1154 count=1 2>/dev/null | $PROGRAM fast";
    let is_found = |_| compare(&["sh", "-c", once]).status.code() == Some(1);
    assert!((0..10).any(is_found));
}

#[test]
fn a_missing_program_is_a_difference() {
    let compared = compare(&["./no-such-program"]);
    assert_eq!(compared.status.code(), Some(1));
}
