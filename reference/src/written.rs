//! The sheet of what is left, the same bytes for the same table, and the call
//! that writes it into a lent buffer.

use std::collections::BTreeSet;

use crate::card;
use crate::filled::{fill, Filled};
use crate::state::{self, WorkState};
use crate::table::{word_of, LegTable};

/// The length of the longest sheet that is written: 64 next sets.
pub const WRITTEN_MOST: usize = 577;

// The maps that are written. No sheet has a previous set, and no record two fields.
const NO_FIELD: u8 = 0b000;
const NEXT_SET: u8 = 0b001;
const FIXED: u8 = 0b100;

/// Writes the sheet to the start of the buffer; a refusal writes nothing.
pub fn write(state: &WorkState, buffer: &mut [u8]) -> Filled {
    if state::bad(state) {
        return Filled::refused(card::BAD_WORK_STATE);
    }
    fill(&written_sheet(&state.table()), buffer)
}

pub fn written_sheet(table: &LegTable) -> Vec<u8> {
    let n = table.n();
    let mut sheet = vec![n as u8];
    for i in table.stations() {
        sheet.extend(record(n, table.successors(i)));
    }
    sheet
}

/// Of two stations one leg is all, so a full row is asked for first.
fn record(n: usize, successors: &BTreeSet<usize>) -> Vec<u8> {
    if successors.len() == n - 1 {
        return vec![NO_FIELD];
    }
    match Vec::from_iter(successors)[..] {
        [&only] => vec![FIXED, only as u8],
        _ => [&[NEXT_SET][..], &word_of(successors).to_le_bytes()].concat(),
    }
}
