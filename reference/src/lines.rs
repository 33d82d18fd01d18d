//! The station lines and the report that writes them into a lent buffer.

use crate::card;
use crate::filled::{fill, Filled};
use crate::state::{self, WorkState};
use crate::table::LegTable;

/// Writes the lines to the start of the buffer; a refusal writes nothing.
pub fn report(state: &WorkState, buffer: &mut [u8]) -> Filled {
    if state::bad(state) {
        return Filled::refused(card::BAD_WORK_STATE);
    }
    fill(station_lines(&state.table()).as_bytes(), buffer)
}

pub fn station_lines(table: &LegTable) -> String {
    table.stations().map(|i| station_line(table, i)).collect()
}

fn station_line(table: &LegTable, i: usize) -> String {
    let legs: String = table
        .successors(i)
        .iter()
        .map(|j| format!(" {j}"))
        .collect();
    format!("{i}:{legs}\n")
}
