//! The report, measured before it is written.

use super::bad;
use super::bits::indices;
use crate::card;
use crate::filled::{fill_by, Filled};
use crate::state::WorkState;

/// Stations 1 to 9, the ones written with a single digit.
const ONE_DIGIT: u64 = 0x1FF;

pub fn report(state: &WorkState, buffer: &mut [u8]) -> Filled {
    if bad(state) {
        return Filled::refused(card::BAD_WORK_STATE);
    }
    let rows = &state.rows[..state.n as usize];
    fill_by(text_length(rows), buffer, |text| {
        let mut at = 0;
        for (i, &row) in rows.iter().enumerate() {
            at = write_line(text, at, i, row);
        }
    })
}

/// Each line has its number, a colon and a newline; each leg a space and a
/// number.
fn text_length(rows: &[u64]) -> usize {
    rows.iter()
        .enumerate()
        .map(|(i, row)| {
            let legs = 2 * row.count_ones() + (row & !ONE_DIGIT).count_ones();
            digits(i) + 2 + legs as usize
        })
        .sum()
}

#[inline]
fn digits(index: usize) -> usize {
    if index < 9 {
        1
    } else {
        2
    }
}

/// Writes one station's line from `at` on and says where it ends.
#[inline]
fn write_line(buffer: &mut [u8], mut at: usize, i: usize, row: u64) -> usize {
    at = write_station(buffer, at, i);
    buffer[at] = b':';
    at += 1;
    for j in indices(row) {
        buffer[at] = b' ';
        at = write_station(buffer, at + 1, j);
    }
    buffer[at] = b'\n';
    at + 1
}

#[inline]
fn write_station(buffer: &mut [u8], mut at: usize, index: usize) -> usize {
    let number = index as u8 + 1;
    if number >= 10 {
        buffer[at] = b'0' + number / 10;
        at += 1;
    }
    buffer[at] = b'0' + number % 10;
    at + 1
}
