//! What a sweep, chain step or pass called by hand does to the work state.

use crate::card::{self, Number};
use crate::state::{End, WorkState};
use crate::table::LegTable;

#[derive(Clone, Copy, Debug, PartialEq, Eq)]
pub struct Handled {
    pub number: Number,
    pub state: WorkState,
    pub removed: u64,
}

/// What a step says of the table, apart from the legs it struck.
#[derive(Clone, Copy, Debug, PartialEq, Eq)]
pub enum Verdict {
    None,
    Undecided,
}

pub fn refused(number: Number, state: WorkState) -> Handled {
    Handled {
        number,
        state,
        removed: 0,
    }
}

/// Applies a rule to the table of a good state.
pub fn by_hand(state: WorkState, rule: impl FnOnce(&mut LegTable) -> Verdict) -> Handled {
    if state.end == End::None {
        return Handled {
            number: card::TAKEN,
            state,
            removed: 0,
        };
    }
    let mut table = state.table();
    let verdict = rule(&mut table);
    let removed = state.legs() - table.leg_count();
    let mut after = WorkState {
        rows: table.rows(),
        ..state
    };
    if verdict == Verdict::None {
        after.end = End::None;
    } else if removed > 0 {
        after.end = End::Open;
        after.place = 0;
        after.mark = false;
    }
    Handled {
        number: card::TAKEN,
        state: after,
        removed,
    }
}
