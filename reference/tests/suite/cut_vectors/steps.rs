//! The script of cut steps beside its answers, step by step.

use reference::state::Rows;
use reference::{vectors, Fast, WorkState};

use crate::parts::{must_of, parts, state_of, Call, Part};
use crate::scripts::answers;

/// A cut step as it is answered.
#[derive(Clone, Debug)]
pub struct Step {
    pub before: WorkState,
    pub given: Rows,
    pub number: u32,
    pub removed: u64,
    pub after: WorkState,
    pub must: Rows,
}

impl Step {
    fn new(before: WorkState, call: &Call) -> Step {
        let words: Vec<&str> = call.answer.split(' ').collect();
        let ["cut", number, "removed", _] = words[..] else {
            panic!("not a cut step: {}", call.answer);
        };
        Step {
            before,
            given: given(&call.arguments),
            number: number.parse().expect("a number"),
            removed: call.removed(),
            after: state_of(&call.after),
            must: must_of(&call.must),
        }
    }

    pub fn taken(&self) -> bool {
        self.number == 0
    }

    pub fn forced(&self) -> bool {
        self.must != self.given
    }

    pub fn changed(&self) -> bool {
        self.after != self.before || self.forced()
    }
}

/// The must-drive table after a row count.
fn given(arguments: &[u8]) -> Rows {
    let mut rows = [0; 64];
    for (row, bytes) in rows.iter_mut().zip(arguments[1..].chunks(8)) {
        *row = u64::from_le_bytes(bytes.try_into().expect("eight bytes"));
    }
    rows
}

/// A call with the states before and after it; a cut step with its must-drive tables.
pub struct Played {
    pub after: WorkState,
    pub step: Option<Step>,
    pub answer: String,
}

/// The calls from a state that is made.
pub struct Row {
    pub made: WorkState,
    pub calls: Vec<Played>,
}

impl Row {
    fn new(part: &Part) -> Row {
        let made = state_of(&part.made.after);
        let mut before = made;
        let mut calls = Vec::new();
        for call in &part.calls {
            let after = match call.opcode {
                b'L' | b'F' => before,
                _ => state_of(&call.after),
            };
            calls.push(Played {
                after,
                step: (call.opcode == b'K').then(|| Step::new(before, call)),
                answer: call.answer.clone(),
            });
            before = after;
        }
        Row { made, calls }
    }

    pub fn steps(&self) -> impl Iterator<Item = &Step> {
        self.calls.iter().filter_map(|call| call.step.as_ref())
    }
}

pub fn rows() -> Vec<Row> {
    let script = vectors::cuts();
    let text = String::from_utf8(answers(&Fast, script.bytes())).expect("text");
    parts(script.bytes(), &text).iter().map(Row::new).collect()
}
