//! A script beside its answers, call by call.

use reference::state::{rows_text, Rows};
use reference::{End, WorkState};

/// A command, the first line of its answer, the state line, the buffer or the list after
/// it, and the line of the must-drive table after a cut step.
#[derive(Debug)]
pub struct Call {
    pub opcode: u8,
    pub arguments: Vec<u8>,
    pub answer: String,
    pub after: String,
    pub must: String,
}

impl Call {
    /// The seed of a pass, the budget of a run, the length of a buffer.
    pub fn argument(&self) -> u64 {
        let bytes = self.arguments.iter().rev();
        bytes.fold(0, |number, &byte| number << 8 | u64::from(byte))
    }

    pub fn is_one_of(&self, opcodes: &[u8]) -> bool {
        opcodes.contains(&self.opcode)
    }

    /// By a sweep, a chain step, a pass, a cut step or a run.
    pub fn removed(&self) -> u64 {
        let words = self.answer.split_once(" removed ");
        words.map_or(0, |(_, removed)| removed.parse().expect("a number"))
    }
}

/// The length of the first command.
fn length(script: &[u8]) -> usize {
    let counted = |at: usize| usize::from(u16::from_le_bytes([script[at], script[at + 1]]));
    match script[0] {
        b'O' => 11 + counted(9),
        b'W' => 28 + 8 * usize::from(script[27]),
        b'A' | b'S' | b'C' => 1,
        b'P' => 9,
        b'V' => 1 + length(&script[1..]),
        b'K' => 2 + 8 * usize::from(script[1]),
        b'R' => 5,
        b'L' => 3 + counted(1),
        b'T' | b'B' => 3,
        b'F' => 6,
        opcode => panic!("unknown: {opcode}"),
    }
}

/// Takes so many bytes and the end of their line off the text.
fn cut(text: &mut &str, length: usize) -> String {
    let (line, rest) = text.split_at(length);
    *text = rest.strip_prefix('\n').expect("the end of a line");
    line.to_string()
}

fn line(text: &mut &str) -> String {
    let length = text.find('\n').expect("a line");
    cut(text, length)
}

/// Takes a command off the script and its answer off the text.
fn call(script: &mut &[u8], text: &mut &str) -> Call {
    let (command, rest) = script.split_at(length(script));
    *script = rest;
    let mut call = Call {
        opcode: command[0],
        arguments: command[1..].to_vec(),
        answer: line(text),
        after: String::new(),
        must: String::new(),
    };
    match call.opcode {
        b'L' => {}
        // A report has lines of its own.
        b'T' => call.after = cut(text, call.argument() as usize),
        _ => call.after = line(text),
    }
    if call.opcode == b'K' {
        call.must = line(text);
    }
    call
}

/// The rows of a line after its first words.
pub fn rows_after(line: &str, words: usize) -> Rows {
    let mut rows = [0; 64];
    for row in line.split(' ').skip(words) {
        let (station, digits) = row.split_once('=').expect("a row");
        let station: usize = station.parse().expect("a station");
        rows[station - 1] = u64::from_str_radix(digits, 16).expect("16 digits");
    }
    rows
}

/// The state of a state line.
pub fn state_of(line: &str) -> WorkState {
    let words: Vec<&str> = line.split(' ').collect();
    let number = |at: usize| words[at].parse().expect("a number");
    let state = WorkState {
        n: number(2),
        limit: number(4),
        place: number(6),
        mark: words[8] == "1",
        end: match words[10] {
            "open" => End::Open,
            "stable" => End::Stable,
            _ => End::None,
        },
        rows: rows_after(line, 13),
    };
    assert_eq!(line, format!("state {state}"));
    state
}

/// The table of the line after a cut step.
pub fn must_of(line: &str) -> Rows {
    let must = rows_after(line, 1);
    assert_eq!(line, format!("must{}", rows_text(&must)));
    must
}

/// A state that is made, and the calls from there on.
#[derive(Debug)]
pub struct Part {
    pub made: Call,
    pub calls: Vec<Call>,
}

impl Part {
    /// The budgets of its runs.
    pub fn budgets(&self) -> Vec<u64> {
        let runs = self.calls.iter().filter(|call| call.opcode == b'R');
        runs.map(Call::argument).collect()
    }

    /// What its last call wrote.
    pub fn wrote(&self) -> Option<&str> {
        let last = self.calls.last()?;
        (last.opcode == b'B').then_some(&last.after)
    }
}

pub fn parts(mut script: &[u8], mut text: &str) -> Vec<Part> {
    let mut parts: Vec<Part> = Vec::new();
    while !script.is_empty() {
        let call = call(&mut script, &mut text);
        if call.is_one_of(b"OWA") {
            let (made, calls) = (call, Vec::new());
            parts.push(Part { made, calls });
        } else {
            let part = parts.last_mut().expect("a state before a call");
            part.calls.push(call);
        }
    }
    assert!(text.is_empty());
    parts
}
