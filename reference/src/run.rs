//! The run with a budget: sweep, chain step, then a pass from each station, over
//! and over.

use crate::card::{self, Number};
use crate::chain::chain_table;
use crate::hand::Verdict;
use crate::pass::pass_table;
use crate::state::{self, End, WorkState};
use crate::sweep::sweep_table;
use crate::table::LegTable;

#[derive(Clone, Copy, Debug, PartialEq, Eq)]
pub struct Ran {
    pub number: Number,
    pub state: WorkState,
    pub steps: u32,
    pub removed: u64,
}

pub fn run(state: WorkState, budget: u32) -> Ran {
    run_with(state, budget, pass_table)
}

/// A run with passes of another kind: they get the table, the seed and the limit.
pub fn run_with(
    state: WorkState,
    budget: u32,
    mut pass: impl FnMut(&mut LegTable, usize, usize) -> Verdict,
) -> Ran {
    if state::bad(&state) {
        return Ran {
            number: card::BAD_WORK_STATE,
            state,
            steps: 0,
            removed: 0,
        };
    }
    let mut table = state.table();
    let mut after = state;
    let mut steps = 0;
    while after.end == End::Open && steps < budget {
        step(&mut table, &mut after, &mut pass);
        steps += 1;
    }
    after.rows = table.rows();
    Ran {
        number: card::TAKEN,
        state: after,
        steps,
        removed: state.legs() - after.legs(),
    }
}

/// One step; the rows of the state are left to the caller.
fn step(
    table: &mut LegTable,
    state: &mut WorkState,
    pass: &mut impl FnMut(&mut LegTable, usize, usize) -> Verdict,
) {
    let before = table.leg_count();
    let verdict = match state.place {
        0 => sweep_table(table),
        1 => chain_table(table),
        place => pass(table, place as usize - 1, state.limit as usize),
    };
    if verdict == Verdict::None {
        state.end = End::None;
        return;
    }
    if table.leg_count() < before {
        state.mark = true;
    }
    if state.place < state::last_place(state.n) {
        state.place += 1;
        return;
    }
    if !state.mark {
        state.end = End::Stable;
    }
    state.place = 0;
    state.mark = false;
}
