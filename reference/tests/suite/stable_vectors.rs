//! The vectors of stable states, by the bytes of their script and the text of its answers
//! alone: in each row nothing changes the stable state, and its table opened anew comes
//! back to it after one cycle. The made-up states at the end do change.

mod rows;

use std::collections::BTreeSet;

use reference::{vectors, Fast, Plain, Telling};

use self::rows::{rows, Row};
use crate::parts::{Call, Part};
use crate::scripts::answers;

const AT_REST: &str = " place 0 mark 0 end open ";
const STABLE: &str = " place 0 mark 0 end stable ";
const LARGEST: u64 = u32::MAX as u64;

/// Is every step tried, with each seed and with the nearest stray ones, and a run?
fn all_tried(tried: &[Call], n: u64) -> bool {
    let any = |opcode: u8, argument: u64| {
        let mut calls = tried.iter().filter(|call| call.opcode == opcode);
        calls.any(|call| call.argument() == argument)
    };
    any(b'S', 0) && any(b'C', 0) && any(b'R', LARGEST) && (0..=n + 1).all(|seed| any(b'P', seed))
}

/// The answer to a call that does nothing on a stable state; nothing for one that cannot.
fn idle(call: &Call, n: u64) -> Option<&'static str> {
    match call.opcode {
        b'S' => Some("sweep 0 removed 0"),
        b'C' => Some("chain 0 removed 0"),
        b'P' if (1..=n).contains(&call.argument()) => Some("pass 0 removed 0"),
        b'P' => Some("pass 8 removed 0"),
        b'R' => Some("run 0 steps 0 removed 0"),
        _ => None,
    }
}

/// Do the runs take the steps of one cycle in all, with nothing but the place to show on
/// the way?
fn one_cycle(part: &Part, stable: &str, n: u64) -> bool {
    let mut done = 0;
    let mut runs = part.calls.iter().filter(|call| call.opcode == b'R');
    let as_expected = runs.all(|run| {
        let steps = run.argument().min(n + 2 - done);
        done += steps;
        let state = if done == n + 2 {
            stable.to_string()
        } else {
            stable.replace(STABLE, &format!(" place {done} mark 0 end open "))
        };
        run.answer == format!("run 0 steps {steps} removed 0") && run.after == state
    });
    as_expected && done == n + 2
}

/// One step before the end of the cycle, with just enough budget and with more; by a sheet.
fn budgets(n: u64) -> [Vec<u64>; 4] {
    [vec![n + 1, 1], vec![n + 2], vec![LARGEST], vec![LARGEST]]
}

/// Is the last state opened from the very bytes that were written before?
fn sheet_comes_back(anew: &[Part]) -> bool {
    let [.., before, last] = anew else {
        return false;
    };
    let sheet = last.made.arguments.iter().skip(10);
    let digits: String = sheet.map(|byte| format!("{byte:02x}")).collect();
    last.made.opcode == b'O' && before.wrote() == Some(&digits)
}

/// What does not hold in a row.
fn fault(row: &Row) -> Option<&'static str> {
    let (stable, n) = (row.stable(), row.n());
    let at_rest = stable.replace(STABLE, AT_REST);
    let tried = row.tried().iter();
    let idle: Vec<_> = tried
        .filter_map(|call| Some((call, idle(call, n)?)))
        .collect();
    let anew = &row.anew;
    let checks = [
        ("opening", row.first.made.after.contains(AT_REST)),
        ("place and mark", stable.contains(STABLE)),
        ("steps", all_tried(row.tried(), n)),
        (
            "answer",
            idle.iter().all(|(call, answer)| call.answer == *answer),
        ),
        ("state", idle.iter().all(|(call, _)| call.after == stable)),
        (
            "opened anew",
            anew.iter().all(|part| part.made.after == at_rest),
        ),
        ("budgets", anew.iter().map(Part::budgets).eq(budgets(n))),
        ("cycle", anew.iter().all(|part| one_cycle(part, stable, n))),
        ("sheet", sheet_comes_back(anew)),
    ];
    let fault = checks.iter().find(|(_, holds)| !holds);
    fault.map(|&(name, _)| name)
}

/// The answers of each implementation.
fn texts() -> [Vec<u8>; 3] {
    let script = vectors::stable();
    let script = script.bytes();
    [
        answers(&Plain, script),
        answers(&Fast, script),
        answers(&Telling, script),
    ]
}

#[test]
fn stable_states_stay() {
    for text in texts() {
        for row in rows(&text).0 {
            assert_eq!(fault(&row), None, "{row:?}");
        }
    }
}

/// Each kind of step strikes a leg or gives none, where no opening led to the state.
#[test]
fn made_up_states_change() {
    for text in texts() {
        let mut kinds = BTreeSet::new();
        for Part { made, calls } in rows(&text).1 {
            let [run, step] = &calls[..] else {
                panic!("not a run and a step: {calls:?}");
            };
            assert_eq!(run.answer, "run 0 steps 0 removed 0");
            assert_eq!(run.after, made.after);
            let struck = step.removed() > 0;
            let end = if struck { AT_REST } else { " end none " };
            assert!(step.after.contains(end));
            kinds.insert((step.opcode, struck));
        }
        assert_eq!(kinds.len(), 6);
    }
}

/// From the first stable state on, which is that of the Petersen graph.
#[test]
fn a_change_in_the_text_is_found() {
    let text = String::from_utf8(answers(&Fast, vectors::stable().bytes())).expect("text");
    let (way, tried) = text.split_at(text.find(STABLE).expect("a stable state"));
    let changes = [
        ("place and mark", STABLE, " place 0 mark 1 end stable "),
        ("answer", "sweep 0 removed 0", "sweep 0 removed 1"),
        ("answer", "pass 0 ", "pass 8 "),
        ("answer", "pass 8 ", "pass 0 "),
        ("answer", "run 0 steps 0 ", "run 0 steps 1 "),
        (
            "state",
            "chain 0 removed 0\nstate n 10 ",
            "chain 0 removed 0\nstate n 9 ",
        ),
        ("opened anew", AT_REST, " place 0 mark 1 end open "),
        ("cycle", "run 0 steps 12 ", "run 0 steps 13 "),
        ("cycle", " place 11 mark 0 ", " place 11 mark 1 "),
        ("sheet", "\n0a01", "\n0a00"),
    ];
    for (part, from, to) in changes {
        let altered = way.to_string() + &tried.replacen(from, to, 1);
        let (rows, _) = rows(altered.as_bytes());
        assert_eq!(fault(&rows[0]), Some(part), "{from}");
        assert!(rows[1..].iter().all(|row| fault(row).is_none()));
    }
}

#[test]
fn the_petersen_graph_keeps_all_its_legs() {
    let (rows, _) = rows(&answers(&Fast, vectors::stable().bytes()));
    let calls = &rows[0].first.calls;
    let of = |opcode: u8| calls.iter().filter(move |call| call.opcode == opcode);
    let run = of(b'R').next().expect("a run");
    assert_eq!(run.answer, "run 0 steps 12 removed 0");
    assert!(run.after.contains(" end stable legs 30 "));
    let lists: Vec<&str> = of(b'L').map(|call| &*call.answer).collect();
    assert_eq!(lists, ["list 0 no"; 4]);
    // Before the run and after it.
    let reports: Vec<&str> = of(b'T').map(|call| &*call.after).collect();
    assert!(reports.len() == 2 && reports[0] == reports[1]);
}

/// The table of a state line.
fn table(state: &str) -> Option<&str> {
    state.split_once(" legs ").map(|(_, table)| table)
}

#[test]
fn every_kind_of_row_is_among_the_vectors() {
    let (rows, _) = rows(&answers(&Fast, vectors::stable().bytes()));
    let any = |kind: &dyn Fn(&Row) -> bool| rows.iter().any(kind);
    for n in (2..=14).chain([16, 64]) {
        assert!(any(&|row| row.n() == n));
    }
    for opcode in *b"OW" {
        assert!(any(&|row| row.first.made.opcode == opcode));
    }
    for struck in [false, true] {
        assert!(any(&|row| {
            let removed: u64 = row.way().iter().map(Call::removed).sum();
            (removed > 0) == struck
        }));
    }
    // Legs are struck by hand in mid-cycle.
    assert!(any(&|row| row.way().windows(2).any(|pair| {
        let mid_cycle = !pair[0].after.contains(" place 0 ");
        mid_cycle && pair[1].is_one_of(b"SCP") && pair[1].removed() > 0
    })));
    // A run in turns leaves the mark set.
    assert!(any(&|row| {
        let mut way = row.way().iter();
        way.any(|call| call.after.contains(" mark 1 end open "))
    }));
    // The same table, and another limit leaves other legs.
    assert!(any(&|row| any(&|other| {
        let alike = table(&row.first.made.after) == table(&other.first.made.after);
        alike && table(row.stable()) != table(other.stable())
    })));
}
