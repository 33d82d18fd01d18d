//! The calls of one implementation, so that several can run the same script.

use crate::cut::{self, Cut};
use crate::fast::{Idle, Told, Untold};
use crate::filled::Filled;
use crate::finder::{self, Sought};
use crate::hand::Handled;
use crate::list::Checked;
use crate::preview::{self, HandStep, Preview};
use crate::run::Ran;
use crate::sheet::Opened;
use crate::state::{self, Rows, WorkState};
use crate::{chain, fast, lines, list, pass, program, run, sheet, sweep, written};

pub trait Calls {
    fn open(&self, sheet: &[u8], limit: u64) -> Opened;
    fn sweep(&self, state: WorkState) -> Handled;
    fn chain(&self, state: WorkState) -> Handled;
    fn pass(&self, state: WorkState, seed: u64) -> Handled;
    fn preview(&self, state: WorkState, step: HandStep) -> Preview;
    fn cut(&self, state: WorkState, must: &Rows) -> Cut;
    fn run(&self, state: WorkState, budget: u32) -> Ran;
    fn list_check(&self, state: &WorkState, numbers: &[u8]) -> Checked;
    fn first_round(&self, state: &WorkState, budget: u32, list: &mut [u8]) -> Sought;
    fn report(&self, state: &WorkState, buffer: &mut [u8]) -> Filled;
    fn write(&self, state: &WorkState, buffer: &mut [u8]) -> Filled;
    fn print(&self, sheet: &[u8], buffer: &mut [u8]) -> Filled;
    fn bad(&self, state: &WorkState) -> bool;
}

/// The calls over plain sets.
pub struct Plain;

/// The calls over words of bits, every pass worked through.
pub struct Fast;

/// The same, with most passes that change nothing told beforehand.
pub struct Telling;

/// The calls over words of bits differ in what is told of passes.
pub trait ByWords {
    type Idle: Idle;
}

impl ByWords for Fast {
    type Idle = Untold;
}

impl ByWords for Telling {
    type Idle = Told;
}

impl Calls for Plain {
    fn open(&self, sheet: &[u8], limit: u64) -> Opened {
        sheet::open(sheet, limit)
    }

    fn sweep(&self, state: WorkState) -> Handled {
        sweep::sweep(state)
    }

    fn chain(&self, state: WorkState) -> Handled {
        chain::chain(state)
    }

    fn pass(&self, state: WorkState, seed: u64) -> Handled {
        pass::pass(state, seed)
    }

    fn preview(&self, state: WorkState, step: HandStep) -> Preview {
        preview::preview(state, step)
    }

    fn cut(&self, state: WorkState, must: &Rows) -> Cut {
        cut::cut(state, must)
    }

    fn run(&self, state: WorkState, budget: u32) -> Ran {
        run::run(state, budget)
    }

    fn list_check(&self, state: &WorkState, numbers: &[u8]) -> Checked {
        list::list_check(state, numbers)
    }

    fn first_round(&self, state: &WorkState, budget: u32, list: &mut [u8]) -> Sought {
        finder::first_round(state, budget, list)
    }

    fn report(&self, state: &WorkState, buffer: &mut [u8]) -> Filled {
        lines::report(state, buffer)
    }

    fn write(&self, state: &WorkState, buffer: &mut [u8]) -> Filled {
        written::write(state, buffer)
    }

    fn print(&self, sheet: &[u8], buffer: &mut [u8]) -> Filled {
        program::print(self, sheet, buffer)
    }

    fn bad(&self, state: &WorkState) -> bool {
        state::bad(state)
    }
}

impl<C: ByWords> Calls for C {
    fn open(&self, sheet: &[u8], limit: u64) -> Opened {
        fast::open(sheet, limit)
    }

    fn sweep(&self, state: WorkState) -> Handled {
        fast::sweep(state)
    }

    fn chain(&self, state: WorkState) -> Handled {
        fast::chain(state)
    }

    fn pass(&self, state: WorkState, seed: u64) -> Handled {
        fast::pass_by::<C::Idle>(state, seed)
    }

    fn preview(&self, state: WorkState, step: HandStep) -> Preview {
        fast::preview_by::<C::Idle>(state, step)
    }

    fn cut(&self, state: WorkState, must: &Rows) -> Cut {
        fast::cut(state, must)
    }

    fn run(&self, state: WorkState, budget: u32) -> Ran {
        fast::run_by::<C::Idle>(state, budget)
    }

    fn list_check(&self, state: &WorkState, numbers: &[u8]) -> Checked {
        fast::list_check(state, numbers)
    }

    fn first_round(&self, state: &WorkState, budget: u32, list: &mut [u8]) -> Sought {
        finder::first_round_by(self, state, budget, list)
    }

    fn report(&self, state: &WorkState, buffer: &mut [u8]) -> Filled {
        fast::report(state, buffer)
    }

    fn write(&self, state: &WorkState, buffer: &mut [u8]) -> Filled {
        fast::write(state, buffer)
    }

    fn print(&self, sheet: &[u8], buffer: &mut [u8]) -> Filled {
        program::print(self, sheet, buffer)
    }

    fn bad(&self, state: &WorkState) -> bool {
        fast::bad(state)
    }
}
