//! The list check as a walk over standing legs.

use super::bad;
use super::bits::{all_stations, bit};
use crate::card;
use crate::list::Checked;
use crate::state::{Rows, WorkState};

pub fn list_check(state: &WorkState, numbers: &[u8]) -> Checked {
    let number = if bad(state) {
        card::BAD_WORK_STATE
    } else if numbers.len() as u64 != state.n {
        card::WRONG_LIST_LENGTH
    } else {
        card::TAKEN
    };
    Checked {
        number,
        yes: number == card::TAKEN && drives_round(&state.rows, numbers),
    }
}

/// Walks from station 1 over standing legs. Reaching n different stations in n
/// steps is a round: the walk can be back at station 1 only with its last step.
fn drives_round(rows: &Rows, numbers: &[u8]) -> bool {
    let mut reached = 0;
    let mut at = 0;
    for _ in numbers {
        let next = usize::from(numbers[at]);
        if next == 0 || next > numbers.len() || rows[at] & bit(next - 1) == 0 {
            return false;
        }
        at = next - 1;
        reached |= bit(at);
    }
    reached == all_stations(numbers.len())
}
