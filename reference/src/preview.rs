//! Previews of steps by hand (W-207): the legs that a sweep, a chain step or a pass would
//! remove, and the end that would follow. The step is done on a copy, and the state is handed
//! back as it was given.

pub mod laws;

use std::collections::BTreeSet;
use std::fmt;

use crate::calls::{Calls, Plain};
use crate::card::{self, Number};
use crate::hand::Handled;
use crate::state::{End, Rows, WorkState};
use crate::table::LegTable;

/// The step that is previewed; a pass has its seed.
#[derive(Clone, Copy, Debug, PartialEq, Eq)]
pub enum HandStep {
    Sweep,
    Chain,
    Pass(u64),
}

impl HandStep {
    /// Does the step by hand.
    pub fn make(self, calls: &dyn Calls, state: WorkState) -> Handled {
        match self {
            HandStep::Sweep => calls.sweep(state),
            HandStep::Chain => calls.chain(state),
            HandStep::Pass(seed) => calls.pass(state, seed),
        }
    }

    /// A sweep, a chain step, and a pass with every seed.
    pub fn all(n: u64) -> impl Iterator<Item = HandStep> {
        let passes = (1..=n).map(HandStep::Pass);
        [HandStep::Sweep, HandStep::Chain].into_iter().chain(passes)
    }
}

impl fmt::Display for HandStep {
    fn fmt(&self, out: &mut fmt::Formatter) -> fmt::Result {
        match self {
            HandStep::Sweep => write!(out, "sweep"),
            HandStep::Chain => write!(out, "chain step"),
            HandStep::Pass(seed) => write!(out, "pass with seed {seed}"),
        }
    }
}

/// What a preview hands back.
#[derive(Clone, Copy, Debug, PartialEq, Eq)]
pub struct Preview {
    pub number: Number,
    /// The table of the previewed legs: those that would go.
    pub legs: Rows,
    /// The end that would follow.
    pub end: End,
    pub state: WorkState,
}

pub const NO_LEGS: Rows = [0; 64];

/// The preview over plain sets.
pub fn preview(state: WorkState, step: HandStep) -> Preview {
    preview_by(&Plain, state, step)
}

/// The same by the steps of any calls.
pub fn preview_by(calls: &dyn Calls, state: WorkState, step: HandStep) -> Preview {
    let after = step.make(calls, state);
    match after.number {
        card::TAKEN => Preview {
            number: card::TAKEN,
            legs: difference(&state.table(), &after.state.table()).rows(),
            end: after.state.end,
            state,
        },
        number => Preview {
            number,
            legs: NO_LEGS,
            end: state.end,
            state,
        },
    }
}

/// The legs of one table that another lacks.
fn difference(table: &LegTable, other: &LegTable) -> LegTable {
    let [legs, others] = [table, other].map(|table| BTreeSet::from_iter(table.legs()));
    LegTable::from_legs(table.n(), legs.difference(&others).copied())
}
