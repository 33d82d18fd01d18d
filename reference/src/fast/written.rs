//! The sheet of what is left, measured before it is written.

use super::bad;
use super::bits::lowest;
use crate::card;
use crate::filled::{fill_by, Filled};
use crate::state::WorkState;

pub fn write(state: &WorkState, buffer: &mut [u8]) -> Filled {
    if bad(state) {
        return Filled::refused(card::BAD_WORK_STATE);
    }
    let n = state.n as u32;
    let records = state.rows[..n as usize]
        .iter()
        .map(|&row| Record::of(row, n));
    let length = 1 + records.clone().map(Record::length).sum::<usize>();
    fill_by(length, buffer, |sheet| {
        let mut rest = put([n as u8], sheet);
        for record in records {
            rest = record.write(rest);
        }
    })
}

/// What is told of one row.
#[derive(Clone, Copy)]
enum Record {
    Full,
    /// The index of the only leg's bit.
    Only(usize),
    Set(u64),
}

impl Record {
    #[inline]
    fn of(row: u64, n: u32) -> Record {
        match row.count_ones() {
            legs if legs + 1 == n => Record::Full,
            1 => Record::Only(lowest(row)),
            _ => Record::Set(row),
        }
    }

    #[inline]
    fn length(self) -> usize {
        match self {
            Record::Full => 1,
            Record::Only(_) => 2,
            Record::Set(_) => 9,
        }
    }

    /// Gives back what is left behind the record. Each field has a length that
    /// the compiler knows, so that its copy is a store.
    #[inline]
    fn write(self, bytes: &mut [u8]) -> &mut [u8] {
        match self {
            Record::Full => put([0], bytes),
            Record::Only(index) => put([4, index as u8 + 1], bytes),
            Record::Set(row) => put(row.to_le_bytes(), put([1], bytes)),
        }
    }
}

#[inline]
fn put<const N: usize>(field: [u8; N], bytes: &mut [u8]) -> &mut [u8] {
    let (start, rest) = bytes.split_first_chunk_mut().expect("room for a field");
    *start = field;
    rest
}
