//! The vectors of turns, by the bytes of their script and the text of its answers alone:
//! in each group the turns of a row add up to the one run.

use reference::{vectors, Calls, Fast, Plain};

use crate::scripts::answers;

/// A run as it is answered, with its budget and the state after it.
#[derive(Clone, Debug)]
struct Turn {
    budget: u64,
    number: u64,
    steps: u64,
    removed: u64,
    state: String,
}

/// A state, and the runs from there one after another.
#[derive(Clone, Debug)]
struct Row {
    state: String,
    turns: Vec<Turn>,
}

/// A run, and rows of turns from the same state.
struct Group {
    whole: Row,
    rows: Vec<Row>,
}

/// The budgets of a script of states and runs.
fn budgets(script: &[u8]) -> Vec<u64> {
    let mut budgets = Vec::new();
    let mut rest = script;
    while let Some(opcode) = rest.first() {
        let length = match opcode {
            b'W' => 28 + 8 * usize::from(rest[27]),
            b'A' => 1,
            b'R' => 5,
            _ => panic!("neither a state nor a run"),
        };
        let (command, after) = rest.split_at(length);
        if let [b'R', budget @ ..] = command {
            let budget = budget.try_into().expect("four bytes");
            budgets.push(u64::from(u32::from_le_bytes(budget)));
        }
        rest = after;
    }
    budgets
}

fn turn(budget: u64, answer: &str, state: String) -> Turn {
    let words: Vec<&str> = answer.split(' ').collect();
    let ["run", number, "steps", steps, "removed", removed] = words[..] else {
        panic!("not a run: {answer}");
    };
    let [number, steps, removed] = [number, steps, removed].map(|word| {
        let number = word.parse();
        number.expect("a number")
    });
    Turn {
        budget,
        number,
        steps,
        removed,
        state,
    }
}

fn rows(script: &[u8], text: &str) -> Vec<Row> {
    let mut rows: Vec<Row> = Vec::new();
    let mut budgets = budgets(script).into_iter();
    let mut lines = text.lines();
    while let Some(answer) = lines.next() {
        let state = lines.next().expect("a state line").to_string();
        if answer == "work" {
            let turns = Vec::new();
            rows.push(Row { state, turns });
        } else {
            let budget = budgets.next().expect("a run for each answer");
            let row = rows.last_mut().expect("a state before a run");
            row.turns.push(turn(budget, answer, state));
        }
    }
    assert!(budgets.next().is_none());
    rows
}

/// A row of one run begins a group.
fn groups(calls: &impl Calls) -> Vec<Group> {
    let script = vectors::turns();
    let text = String::from_utf8(answers(calls, script.bytes())).expect("text");
    let mut groups: Vec<Group> = Vec::new();
    for row in rows(script.bytes(), &text) {
        if row.turns.len() == 1 {
            let rows = Vec::new();
            groups.push(Group { whole: row, rows });
        } else {
            let group = groups.last_mut().expect("a run before its turns");
            group.rows.push(row);
        }
    }
    groups
}

fn sum(row: &Row, part: fn(&Turn) -> u64) -> u64 {
    row.turns.iter().map(part).sum()
}

fn last_state(row: &Row) -> &str {
    row.turns.last().map_or(&row.state, |turn| &turn.state)
}

/// What a row does not have from the whole run, or not in sum.
fn fault(whole: &Row, row: &Row) -> Option<&'static str> {
    let number = whole.turns[0].number;
    let checks = [
        ("first state", row.state == whole.state),
        ("number", row.turns.iter().all(|turn| turn.number == number)),
        (
            "budgets",
            sum(row, |turn| turn.budget) == sum(whole, |turn| turn.budget),
        ),
        (
            "steps",
            sum(row, |turn| turn.steps) == sum(whole, |turn| turn.steps),
        ),
        (
            "removals",
            sum(row, |turn| turn.removed) == sum(whole, |turn| turn.removed),
        ),
        ("last state", last_state(row) == last_state(whole)),
    ];
    checks
        .iter()
        .find(|(_, holds)| !holds)
        .map(|&(name, _)| name)
}

#[test]
fn turns_add_up_to_the_whole_run() {
    for group in groups(&Plain) {
        assert!(!group.rows.is_empty());
        for row in &group.rows {
            let fault = fault(&group.whole, row);
            assert_eq!(fault, None, "{row:?} beside {:?}", group.whole);
        }
    }
}

/// Whole runs too. A refused run, an ended one and one with a budget of 0 leave the state;
/// any other takes its budget or comes to its end.
#[test]
fn each_turn_keeps_to_its_budget() {
    let all = groups(&Fast);
    let rows = all
        .iter()
        .flat_map(|group| group.rows.iter().chain([&group.whole]));
    for row in rows {
        let mut before = &row.state;
        for turn in &row.turns {
            let idle = turn.number == 7 || turn.budget == 0 || !before.contains(" end open ");
            if idle {
                assert_eq!((turn.steps, turn.removed, &turn.state), (0, 0, before));
            } else {
                let ended = !turn.state.contains(" end open ");
                assert!(turn.steps == turn.budget || turn.steps < turn.budget && ended);
            }
            before = &turn.state;
        }
    }
}

type Change = fn(&mut Row);

#[test]
fn a_change_of_any_part_is_found() {
    let all = groups(&Fast);
    let Group { whole, rows } = &all[0];
    let changes: [(&str, Change); 6] = [
        ("first state", |row| row.state.push('.')),
        ("number", |row| row.turns[0].number += 1),
        ("budgets", |row| row.turns[0].budget += 1),
        ("steps", |row| row.turns[0].steps += 1),
        ("removals", |row| row.turns[1].removed += 1),
        ("last state", |row| row.turns[1].state.push('.')),
    ];
    for (part, change) in changes {
        let mut row = rows[3].clone();
        assert_eq!(fault(whole, &row), None);
        change(&mut row);
        assert_eq!(fault(whole, &row), Some(part));
    }
}

#[test]
fn every_kind_of_turns_is_among_the_vectors() {
    let all = groups(&Fast);
    let any = |kind: &dyn Fn(&Group) -> bool| all.iter().any(kind);
    for end in ["open", "stable", "none"] {
        let word = format!(" end {end} ");
        assert!(any(&|group| {
            let ran = &group.whole.turns[0];
            ran.number == 0 && ran.removed > 0 && ran.state.contains(&word)
        }));
    }
    for end in ["stable", "none"] {
        let word = format!(" end {end} ");
        assert!(any(&|group| group.whole.state.contains(&word)));
        // The first turn comes to the end.
        assert!(any(&|group| {
            let mut first = group.rows.iter().map(|row| &row.turns[0]);
            group.whole.state.contains(" end open ") && first.any(|turn| turn.state.contains(&word))
        }));
    }
    assert!(any(&|group| group.whole.turns[0].number == 7));
    assert!(any(&|group| group.whole.turns[0].budget == 0));
    let largest = u64::from(u32::MAX);
    assert!(any(&|group| group.whole.turns[0].budget == largest));
    assert!(any(&|group| group
        .whole
        .state
        .contains(" mark 1 end open ")));
    assert!(any(&|group| group.whole.state.contains("state n 64 ")));
    assert!(any(&|group| group
        .rows
        .iter()
        .any(|row| row.turns.len() > 10)));
}
