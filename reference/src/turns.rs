//! Runs in turns: what W-211 says of them.

use crate::calls::Calls;
use crate::card::{self, Number};
use crate::run::Ran;
use crate::state::{self, WorkState};

/// One run of a row, with what it was given.
#[derive(Clone, Copy, Debug, PartialEq, Eq)]
pub struct Turn {
    pub before: WorkState,
    pub budget: u32,
    pub ran: Ran,
}

/// What a row of runs hands back together. Its sums have room for those of wrong runs
/// too, so that no overflow hides them.
#[derive(Clone, Copy, Debug, PartialEq, Eq)]
pub struct Together {
    /// That of the last turn; [`fault`] asks for the same one each time.
    pub number: Number,
    pub state: WorkState,
    pub steps: u64,
    pub removed: u64,
}

/// A row of runs with these budgets, each from the state that the one before handed
/// back, with no other call between them.
pub fn take(calls: &dyn Calls, state: WorkState, budgets: &[u32]) -> Vec<Turn> {
    let mut before = state;
    let turn = |&budget: &u32| {
        let ran = calls.run(before, budget);
        let turn = Turn {
            before,
            budget,
            ran,
        };
        before = ran.state;
        turn
    };
    budgets.iter().map(turn).collect()
}

/// The budget of the one run that a row is held to; above 4,294,967,295 there is none.
pub fn budget_of(budgets: &[u32]) -> Option<u32> {
    let mut budgets = budgets.iter();
    budgets.try_fold(0, |sum: u32, &budget| sum.checked_add(budget))
}

/// Of a row of at least one run.
pub fn together(turns: &[Turn]) -> Together {
    let last = turns.last().expect("a turn").ran;
    Together {
        number: last.number,
        state: last.state,
        steps: turns.iter().map(|turn| u64::from(turn.ran.steps)).sum(),
        removed: turns.iter().map(|turn| turn.ran.removed).sum(),
    }
}

/// What a row of runs does otherwise than one run from its first state with the sum of
/// its budgets, or than a run that changes nothing. Every turn checks the state that it
/// is given, and so does the one run.
pub fn fault(turns: &[Turn], one: &Ran) -> Option<&'static str> {
    let first = &turns.first().expect("a turn").before;
    let sum = together(turns);
    if turns.iter().any(|turn| turn.ran.number != one.number) {
        Some("one of the turns has another number than one run")
    } else if one.number != number_on(first) {
        Some("the turns have another number than their state")
    } else if turns.iter().any(Turn::is_wrong_change) {
        Some("one of the turns changes something, but has no budget or a bad state")
    } else if sum.state != one.state {
        Some("the turns come to another state than one run")
    } else if sum.steps != u64::from(one.steps) {
        Some("the turns add up to other steps than one run")
    } else if sum.removed != one.removed {
        Some("the turns add up to other removals than one run")
    } else {
        None
    }
}

/// The number of every run on this state.
fn number_on(state: &WorkState) -> Number {
    if state::bad(state) {
        card::BAD_WORK_STATE
    } else {
        card::TAKEN
    }
}

impl Turn {
    /// Does the run hand back the given state, with no step and no removal?
    fn changes_nothing(&self) -> bool {
        let Ran { steps, removed, .. } = self.ran;
        (self.ran.state, steps, removed) == (self.before, 0, 0)
    }

    fn is_wrong_change(&self) -> bool {
        let must_not = self.budget == 0 || state::bad(&self.before);
        must_not && !self.changes_nothing()
    }
}
