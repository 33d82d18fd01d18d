//! The script of stable states beside its answers, row by row.

use reference::vectors;

use crate::parts::{parts, Call, Part};

/// The way to a stable state and what is tried there, then its table opened anew, the last
/// time by the sheet that was written before.
#[derive(Debug)]
pub struct Row {
    pub first: Part,
    pub anew: Vec<Part>,
}

impl Row {
    /// The calls up to the first run that ends stable, and those after it.
    fn halves(&self) -> (&[Call], &[Call]) {
        let stable = |call: &Call| call.opcode == b'R' && call.after.contains(" end stable ");
        let at = self.first.calls.iter().position(stable);
        self.first.calls.split_at(at.expect("a stable end") + 1)
    }

    pub fn way(&self) -> &[Call] {
        self.halves().0
    }

    pub fn tried(&self) -> &[Call] {
        self.halves().1
    }

    pub fn stable(&self) -> &str {
        let way = self.way();
        &way[way.len() - 1].after
    }

    /// The opening after a written sheet is the last one.
    fn ended(&self) -> bool {
        matches!(&self.anew[..], [.., before, _] if before.wrote().is_some())
    }

    pub fn n(&self) -> u64 {
        let word = self.stable().split(' ').nth(2).expect("a count");
        word.parse().expect("a number")
    }
}

/// The rows, and the states that say stable from the start.
pub fn rows(text: &[u8]) -> (Vec<Row>, Vec<Part>) {
    let text = std::str::from_utf8(text).expect("text");
    let mut parts = parts(vectors::stable().bytes(), text);
    let opened = parts
        .iter()
        .take_while(|part| !part.made.after.contains(" end stable "));
    let made_up = parts.split_off(opened.count());
    let mut rows: Vec<Row> = Vec::new();
    for part in parts {
        match rows.last_mut() {
            Some(row) if !row.ended() => row.anew.push(part),
            _ => rows.push(Row {
                first: part,
                anew: Vec::new(),
            }),
        }
    }
    (rows, made_up)
}
