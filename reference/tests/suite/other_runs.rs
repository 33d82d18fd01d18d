//! The fast calls with runs or steps by hand of another kind, for what a comparison has
//! to find.

use reference::finder::first_round_by;
use reference::hand::Handled;
use reference::list::Checked;
use reference::preview::{preview_by, HandStep, Preview};
use reference::run::Ran;
use reference::sheet::Opened;
use reference::state::Rows;
use reference::{Calls, Cut, Fast, Filled, Sought, WorkState};

/// Makes a run of the state and the budget, and hands on what a step by hand on the
/// state has answered.
pub struct OtherRuns<R, H> {
    run: R,
    by_hand: H,
}

pub fn other_runs(run: impl Fn(WorkState, u32) -> Ran) -> impl Calls {
    let by_hand = |_: &WorkState, handled| handled;
    OtherRuns { run, by_hand }
}

pub fn other_steps(by_hand: impl Fn(&WorkState, Handled) -> Handled) -> impl Calls {
    let run = |state, budget| Fast.run(state, budget);
    OtherRuns { run, by_hand }
}

impl<R, H> Calls for OtherRuns<R, H>
where
    R: Fn(WorkState, u32) -> Ran,
    H: Fn(&WorkState, Handled) -> Handled,
{
    fn open(&self, sheet: &[u8], limit: u64) -> Opened {
        Fast.open(sheet, limit)
    }

    fn sweep(&self, state: WorkState) -> Handled {
        (self.by_hand)(&state, Fast.sweep(state))
    }

    fn chain(&self, state: WorkState) -> Handled {
        (self.by_hand)(&state, Fast.chain(state))
    }

    fn pass(&self, state: WorkState, seed: u64) -> Handled {
        (self.by_hand)(&state, Fast.pass(state, seed))
    }

    fn preview(&self, state: WorkState, step: HandStep) -> Preview {
        preview_by(self, state, step)
    }

    fn cut(&self, state: WorkState, must: &Rows) -> Cut {
        Fast.cut(state, must)
    }

    fn run(&self, state: WorkState, budget: u32) -> Ran {
        (self.run)(state, budget)
    }

    fn list_check(&self, state: &WorkState, numbers: &[u8]) -> Checked {
        Fast.list_check(state, numbers)
    }

    fn first_round(&self, state: &WorkState, budget: u32, list: &mut [u8]) -> Sought {
        first_round_by(self, state, budget, list)
    }

    fn report(&self, state: &WorkState, buffer: &mut [u8]) -> Filled {
        Fast.report(state, buffer)
    }

    fn write(&self, state: &WorkState, buffer: &mut [u8]) -> Filled {
        Fast.write(state, buffer)
    }

    fn print(&self, sheet: &[u8], buffer: &mut [u8]) -> Filled {
        Fast.print(sheet, buffer)
    }

    fn bad(&self, state: &WorkState) -> bool {
        Fast.bad(state)
    }
}
