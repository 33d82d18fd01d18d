//! The list check: does a list of successors describe a round of the table?

use crate::card::{self, Number};
use crate::state::{self, WorkState};

#[derive(Clone, Copy, Debug, PartialEq, Eq)]
pub struct Checked {
    pub number: Number,
    pub yes: bool,
}

pub fn list_check(state: &WorkState, numbers: &[u8]) -> Checked {
    if state::bad(state) {
        return Checked {
            number: card::BAD_WORK_STATE,
            yes: false,
        };
    }
    if numbers.len() as u64 != state.n {
        return Checked {
            number: card::WRONG_LIST_LENGTH,
            yes: false,
        };
    }
    let successors: Vec<usize> = numbers.iter().map(|&number| usize::from(number)).collect();
    let table = state.table();
    Checked {
        number: card::TAKEN,
        yes: is_round(&successors) && table.stations().all(|i| table.has(i, successors[i - 1])),
    }
}

/// Whether the walk from station 1 meets every station once before it is back.
/// `successors[i - 1]` follows station i.
pub fn is_round(successors: &[usize]) -> bool {
    let n = successors.len();
    if successors.iter().any(|&next| next == 0 || next > n) {
        return false;
    }
    let mut visited = vec![false; n];
    let mut station = 1;
    for _ in 1..=n {
        if visited[station - 1] {
            return false;
        }
        visited[station - 1] = true;
        station = successors[station - 1];
    }
    station == 1
}
