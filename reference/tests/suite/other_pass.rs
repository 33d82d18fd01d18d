//! The fast calls with passes of another kind, for what a comparison has to find.

use reference::hand::{self, Handled, Verdict};
use reference::list::Checked;
use reference::preview::{preview_by, HandStep, Preview};
use reference::run::{run_with, Ran};
use reference::sheet::Opened;
use reference::state::Rows;
use reference::{Calls, Cut, Fast, Filled, LegTable, Sought, WorkState};

/// Makes the pass of a run or of a call by hand. It is used on few stations: above, it
/// would take long.
pub struct OtherPass<M>(pub M);

fn taken(state: &WorkState) -> bool {
    state.n <= 12 && !Fast.bad(state)
}

impl<M, P> Calls for OtherPass<M>
where
    M: Fn() -> P,
    P: FnMut(&mut LegTable, usize, usize) -> Verdict,
{
    fn open(&self, sheet: &[u8], limit: u64) -> Opened {
        Fast.open(sheet, limit)
    }

    fn sweep(&self, state: WorkState) -> Handled {
        Fast.sweep(state)
    }

    fn chain(&self, state: WorkState) -> Handled {
        Fast.chain(state)
    }

    fn pass(&self, state: WorkState, seed: u64) -> Handled {
        if !taken(&state) || !(1..=state.n).contains(&seed) {
            return Fast.pass(state, seed);
        }
        hand::by_hand(state, |table| {
            (self.0)()(table, seed as usize, state.limit as usize)
        })
    }

    fn preview(&self, state: WorkState, step: HandStep) -> Preview {
        preview_by(self, state, step)
    }

    fn cut(&self, state: WorkState, must: &Rows) -> Cut {
        Fast.cut(state, must)
    }

    fn run(&self, state: WorkState, budget: u32) -> Ran {
        if !taken(&state) {
            return Fast.run(state, budget);
        }
        run_with(state, budget, (self.0)())
    }

    fn list_check(&self, state: &WorkState, numbers: &[u8]) -> Checked {
        Fast.list_check(state, numbers)
    }

    fn first_round(&self, state: &WorkState, budget: u32, list: &mut [u8]) -> Sought {
        Fast.first_round(state, budget, list)
    }

    fn report(&self, state: &WorkState, buffer: &mut [u8]) -> Filled {
        Fast.report(state, buffer)
    }

    fn write(&self, state: &WorkState, buffer: &mut [u8]) -> Filled {
        Fast.write(state, buffer)
    }

    fn print(&self, sheet: &[u8], buffer: &mut [u8]) -> Filled {
        Fast.print(sheet, buffer)
    }

    fn bad(&self, state: &WorkState) -> bool {
        Fast.bad(state)
    }
}
