//! Stable states: what W-212 says of those that calls from an opened sheet have led to.

use crate::calls::Calls;
use crate::card;
use crate::hand::Handled;
use crate::run::Ran;
use crate::sheet::Opened;
use crate::state::{cycle, End, WorkState};
use crate::written::WRITTEN_MOST;

/// What is wrong with a stable state, or with a call on it.
pub type Fault = Option<&'static str>;

/// The same table and limit as an opening gives them.
pub fn opened_anew(state: &WorkState) -> WorkState {
    WorkState {
        place: 0,
        mark: false,
        end: End::Open,
        ..*state
    }
}

/// Seeds that no table of n stations has. Cut to 32 bits, the third one would be 1.
pub fn stray_seeds(n: u64) -> [u64; 4] {
    [0, n + 1, (1 << 32) + 1, u64::MAX]
}

/// What calls do with a stable state otherwise than is said: all steps by hand, stray
/// seeds, runs, and runs on the state opened anew, also by way of its sheet.
pub fn fault(calls: &dyn Calls, stable: &WorkState) -> Fault {
    fault_of_state(stable)
        .or_else(|| fault_by_hand(calls, stable))
        .or_else(|| fault_by_stray_seed(calls, stable))
        .or_else(|| fault_by_run(calls, stable))
        .or_else(|| fault_by_opening_anew(calls, stable))
        .or_else(|| fault_by_sheet(calls, stable))
}

fn fault_by_hand(calls: &dyn Calls, stable: &WorkState) -> Fault {
    let passes = (1..=stable.n).map(|seed| calls.pass(*stable, seed));
    let mut steps = [calls.sweep(*stable), calls.chain(*stable)]
        .into_iter()
        .chain(passes);
    steps.find_map(|step| fault_of_step(stable, &step))
}

fn fault_by_stray_seed(calls: &dyn Calls, stable: &WorkState) -> Fault {
    let mut seeds = stray_seeds(stable.n).into_iter();
    seeds.find_map(|seed| fault_of_stray_seed(stable, &calls.pass(*stable, seed)))
}

fn fault_by_run(calls: &dyn Calls, stable: &WorkState) -> Fault {
    let mut budgets = [0, 1, cycle(stable.n), u32::MAX].into_iter();
    budgets.find_map(|budget| fault_of_run(stable, &calls.run(*stable, budget)))
}

fn fault_by_opening_anew(calls: &dyn Calls, stable: &WorkState) -> Fault {
    let (anew, cycle) = (opened_anew(stable), cycle(stable.n));
    let mut budgets = [0, 1, cycle - 1, cycle, cycle + 1, u32::MAX].into_iter();
    budgets.find_map(|budget| fault_of_run_anew(stable, budget, &calls.run(anew, budget)))
}

fn fault_by_sheet(calls: &dyn Calls, stable: &WorkState) -> Fault {
    let mut buffer = [0; WRITTEN_MOST];
    let length = calls.write(stable, &mut buffer).length as usize;
    let opened = calls.open(&buffer[..length], stable.limit);
    let again = || calls.run(opened.state, u32::MAX);
    fault_of_sheet(stable, &opened).or_else(|| fault_of_run_anew(stable, u32::MAX, &again()))
}

pub fn fault_of_state(stable: &WorkState) -> Fault {
    let at_start = stable.place == 0 && !stable.mark;
    (!at_start).then_some("a stable state is not at place 0 with the mark clear")
}

/// Of a sweep, a chain step or a pass by hand.
pub fn fault_of_step(stable: &WorkState, step: &Handled) -> Fault {
    if step.number != card::TAKEN {
        Some("a step by hand is refused on a stable state")
    } else if step.removed != 0 || step.state.rows != stable.rows {
        Some("a step by hand removes legs from a stable state")
    } else if step.state.end == End::None {
        Some("a step by hand gives none on a stable state")
    } else if step.state != *stable {
        Some("a step by hand removes nothing, but changes a stable state")
    } else {
        None
    }
}

/// Of a pass by hand with a stray seed.
pub fn fault_of_stray_seed(stable: &WorkState, pass: &Handled) -> Fault {
    if pass.number != card::STRAY_SEED {
        Some("a stray seed is not refused on a stable state")
    } else if (pass.state, pass.removed) != (*stable, 0) {
        Some("a stray seed changes a stable state")
    } else {
        None
    }
}

/// Of a run on the stable state with any budget.
pub fn fault_of_run(stable: &WorkState, ran: &Ran) -> Fault {
    let expected = Ran {
        number: card::TAKEN,
        state: *stable,
        steps: 0,
        removed: 0,
    };
    (*ran != expected).then_some("a run on a stable state takes a step or changes it")
}

/// Of a run with this budget on the stable state opened anew: it takes one cycle, or as
/// much of it as the budget allows, and finds nothing to remove.
pub fn fault_of_run_anew(stable: &WorkState, budget: u32, ran: &Ran) -> Fault {
    let steps = budget.min(cycle(stable.n));
    let in_the_cycle = WorkState {
        place: steps.into(),
        ..opened_anew(stable)
    };
    let state = if steps == cycle(stable.n) {
        *stable
    } else {
        in_the_cycle
    };
    if ran.number != card::TAKEN {
        Some("a stable state opened anew is refused")
    } else if ran.removed != 0 || ran.state.rows != stable.rows {
        Some("a stable state opened anew loses legs")
    } else if ran.steps != steps {
        Some("a stable state opened anew does not take the steps of one cycle")
    } else if ran.state != state {
        Some("a stable state opened anew comes to another state")
    } else {
        None
    }
}

/// Of the opening of its sheet with its limit.
pub fn fault_of_sheet(stable: &WorkState, opened: &Opened) -> Fault {
    let expected = Opened {
        number: card::TAKEN,
        place: 0,
        state: opened_anew(stable),
    };
    (*opened != expected).then_some("the sheet of a stable state does not open it anew")
}
