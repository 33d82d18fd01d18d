//! The script of previews beside its answers: previews, and the steps among them.

use std::collections::HashMap;

use reference::state::{rows_text, Rows};
use reference::{vectors, End, Fast, WorkState};

use crate::parts::{parts, rows_after, state_of, Call, Part};
use crate::scripts::answers;

/// A step on a state, by the line of the state and the bytes of the command.
pub type Key = (String, Vec<u8>);

/// A preview as it is answered.
#[derive(Clone, Debug, PartialEq, Eq)]
pub struct Shown {
    pub before: WorkState,
    /// The command that is previewed.
    pub command: Vec<u8>,
    pub number: u32,
    pub end: End,
    pub count: u64,
    pub legs: Rows,
    /// What is handed back.
    pub state: WorkState,
}

impl Shown {
    fn new(before: &str, call: &Call) -> Shown {
        let words: Vec<&str> = call.answer.split(' ').take(6).collect();
        let ["preview", number, "end", end, "legs", count] = words[..] else {
            panic!("not a preview: {}", call.answer);
        };
        let legs = rows_after(&call.answer, 6);
        assert!(call
            .answer
            .ends_with(&format!("legs {count}{}", rows_text(&legs))));
        Shown {
            before: state_of(before),
            command: call.arguments.clone(),
            number: number.parse().expect("a number"),
            end: [End::Open, End::Stable, End::None]
                .into_iter()
                .find(|other| other.word() == end)
                .expect("an end"),
            count: count.parse().expect("a count"),
            legs,
            state: state_of(&call.after),
        }
    }

    pub fn key(&self) -> Key {
        (format!("state {}", self.before), self.command.clone())
    }

    /// The seed of a pass.
    pub fn seed(&self) -> Option<u64> {
        let (opcode, seed) = self.command.split_first()?;
        let seed = || u64::from_le_bytes(seed.try_into().expect("eight bytes"));
        (*opcode == b'P').then(seed)
    }

    pub fn taken(&self) -> bool {
        self.number == 0
    }

    /// Was it taken on a state whose end was not none?
    pub fn works(&self) -> bool {
        self.taken() && self.before.end != End::None
    }

    pub fn none(&self) -> bool {
        self.works() && self.end == End::None
    }

    /// No leg would go, and the end would stay.
    pub fn nothing(&self) -> bool {
        self.legs == [0; 64] && self.end == self.before.end
    }
}

/// A step as it is answered.
#[derive(Clone, Debug)]
pub struct Made {
    pub number: u32,
    pub removed: u64,
    pub after: WorkState,
}

impl Made {
    fn new(call: &Call) -> Made {
        let number = call.answer.split(' ').nth(1).expect("a number");
        Made {
            number: number.parse().expect("a number"),
            removed: call.removed(),
            after: state_of(&call.after),
        }
    }
}

/// A preview, or a step with its command.
pub enum Played {
    Shown(Box<Shown>),
    Made(Key, Box<Made>),
    /// A run, which comes to this end.
    Ran(End),
    Other,
}

/// The calls from each state that is made.
pub fn rows() -> Vec<Vec<Played>> {
    let script = vectors::previews();
    let text = String::from_utf8(answers(&Fast, script.bytes())).expect("text");
    parts(script.bytes(), &text).iter().map(row).collect()
}

fn row(part: &Part) -> Vec<Played> {
    let mut before = part.made.after.clone();
    let mut row = Vec::new();
    for call in &part.calls {
        let key = || {
            let command = [&[call.opcode], &call.arguments[..]].concat();
            (before.clone(), command)
        };
        row.push(match call.opcode {
            b'V' => Played::Shown(Box::new(Shown::new(&before, call))),
            b'S' | b'C' | b'P' => Played::Made(key(), Box::new(Made::new(call))),
            b'R' => Played::Ran(state_of(&call.after).end),
            _ => Played::Other,
        });
        // A search leaves the state, and so does a preview.
        if !call.is_one_of(b"FV") {
            before = call.after.clone();
        }
    }
    row
}

pub fn all_shown(rows: &[Vec<Played>]) -> Vec<Shown> {
    let played = rows.iter().flatten();
    let shown = played.filter_map(|played| match played {
        Played::Shown(shown) => Some(Shown::clone(shown)),
        _ => None,
    });
    shown.collect()
}

/// The steps of all rows, by state and command.
pub fn all_made(rows: &[Vec<Played>]) -> HashMap<Key, Made> {
    let played = rows.iter().flatten();
    let made = played.filter_map(|played| match played {
        Played::Made(key, made) => Some((key.clone(), Made::clone(made))),
        _ => None,
    });
    made.collect()
}
