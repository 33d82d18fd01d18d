//! The fast calls with previews of another kind, for what a comparison has to find.

use reference::hand::Handled;
use reference::list::Checked;
use reference::run::Ran;
use reference::sheet::Opened;
use reference::state::Rows;
use reference::{Calls, Cut, Fast, Filled, HandStep, Preview, Sought, WorkState};

/// Makes a preview of the state and the step.
pub struct OtherPreviews<P>(pub P);

impl<P> Calls for OtherPreviews<P>
where
    P: Fn(WorkState, HandStep) -> Preview,
{
    fn open(&self, sheet: &[u8], limit: u64) -> Opened {
        Fast.open(sheet, limit)
    }

    fn sweep(&self, state: WorkState) -> Handled {
        Fast.sweep(state)
    }

    fn chain(&self, state: WorkState) -> Handled {
        Fast.chain(state)
    }

    fn pass(&self, state: WorkState, seed: u64) -> Handled {
        Fast.pass(state, seed)
    }

    fn preview(&self, state: WorkState, step: HandStep) -> Preview {
        (self.0)(state, step)
    }

    fn cut(&self, state: WorkState, must: &Rows) -> Cut {
        Fast.cut(state, must)
    }

    fn run(&self, state: WorkState, budget: u32) -> Ran {
        Fast.run(state, budget)
    }

    fn list_check(&self, state: &WorkState, numbers: &[u8]) -> Checked {
        Fast.list_check(state, numbers)
    }

    fn first_round(&self, state: &WorkState, budget: u32, list: &mut [u8]) -> Sought {
        Fast.first_round(state, budget, list)
    }

    fn report(&self, state: &WorkState, buffer: &mut [u8]) -> Filled {
        Fast.report(state, buffer)
    }

    fn write(&self, state: &WorkState, buffer: &mut [u8]) -> Filled {
        Fast.write(state, buffer)
    }

    fn print(&self, sheet: &[u8], buffer: &mut [u8]) -> Filled {
        Fast.print(sheet, buffer)
    }

    fn bad(&self, state: &WorkState) -> bool {
        Fast.bad(state)
    }
}
