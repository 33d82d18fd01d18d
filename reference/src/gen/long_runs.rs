//! Tables with long runs: of those that `bin/ceiling.rs` comes to, the ones whose runs
//! have the most steps for their number of stations, with limit 64.

use super::from_next;
use crate::table::LegTable;

/// For each station the next ones.
type Rows = [&'static [usize]];

const ROWS: [&Rows; 8] = [
    &[&[2], &[1]],
    &[&[2, 3], &[3], &[1]],
    &[&[2, 3], &[4], &[2], &[1]],
    &[&[2, 4, 5], &[3, 5], &[1, 4], &[1, 3], &[1, 2]],
    &[&[3, 4], &[1], &[2, 5], &[5, 6], &[3, 4, 6], &[1, 2]],
    &[
        &[4, 6, 7],
        &[6, 7],
        &[1, 2],
        &[2, 5],
        &[3, 4, 8],
        &[3, 5],
        &[1, 8],
        &[1, 3],
    ],
    &[
        &[4, 6],
        &[10, 11],
        &[6, 10],
        &[1, 9],
        &[8, 11, 12],
        &[3, 5],
        &[8, 12],
        &[2, 7],
        &[5, 7],
        &[1],
        &[2, 4],
        &[3, 9],
    ],
    &[
        &[5, 14],
        &[1, 8],
        &[1, 14],
        &[2, 7],
        &[6, 12, 13],
        &[8, 13],
        &[6, 10, 15],
        &[3, 12],
        &[7, 16],
        &[4, 5],
        &[9, 15],
        &[4, 16],
        &[3, 15],
        &[6, 9],
        &[9, 11],
        &[10, 11],
    ],
];

/// Tables of 2, 3, 4, 5, 6, 8, 12 and 16 stations. Their runs strike hardly more than one
/// leg in a cycle.
pub fn long_runs() -> [LegTable; 8] {
    ROWS.map(from_next)
}
