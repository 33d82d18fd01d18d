//! The sweep over whole rows.

use super::bits::{all_stations, is_single};
use super::Outcome;

/// Sweeps the rows of all stations.
pub fn sweep_rows(rows: &mut [u64]) -> Outcome {
    // Stations with a predecessor and with more than one.
    let (mut reached, mut reached_again) = (0, 0);
    // Stations that are the only successor of one station and of more.
    let (mut sole, mut sole_again) = (0, 0);
    for &row in rows.iter() {
        if row == 0 {
            return Outcome::NONE;
        }
        reached_again |= reached & row;
        reached |= row;
        if is_single(row) {
            sole_again |= sole & row;
            sole |= row;
        }
    }
    if reached != all_stations(rows.len()) {
        return Outcome::NONE;
    }
    let once = reached & !reached_again;
    let mut removed = 0;
    for row in rows.iter_mut() {
        let kept = swept_row(*row, once, sole, sole_again);
        removed += u64::from((*row & !kept).count_ones());
        *row = kept;
    }
    Outcome {
        removed,
        none: false,
    }
}

/// What a sweep leaves of one row; `once` holds the stations with a single
/// predecessor.
#[inline]
fn swept_row(row: u64, once: u64, sole: u64, sole_again: u64) -> u64 {
    let claimed = if is_single(row) { sole_again } else { sole };
    let kept = row & !claimed;
    // Stations that only this one leads to: with two of them, every leg of the
    // row stands in the way of one.
    let dependent = row & once;
    if dependent == 0 {
        kept
    } else if is_single(dependent) {
        kept & dependent
    } else {
        0
    }
}
