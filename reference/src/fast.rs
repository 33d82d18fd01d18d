//! The same calls over words of bits.
//!
//! Nothing here allocates. A run keeps rows and columns of the table side by
//! side over all its steps, and a pass finds out which legs some choice takes
//! bare from one matching for each direction.
//!
//! Pass and run come in two versions ([`Idle`]): one works through every level of
//! every pass, the other tells most passes that change nothing beforehand. The search
//! for the first round is over runs of the latter.

mod bits;
mod chain;
mod components;
mod cut;
mod finder;
mod flood;
mod grid;
mod idle;
mod legs;
mod lines;
mod list;
mod matching;
mod pivots;
mod preview;
mod sheet;
mod sweep;
mod written;

use self::bits::{all_stations, bit};
use self::chain::chain_rows;
use self::grid::Grid;
use self::sweep::sweep_rows;
use crate::card::{self, Number};
use crate::hand::{self, Handled};
use crate::run::Ran;
use crate::state::{good_limit, last_place, End, WorkState};

pub use self::components::components;
pub use self::cut::cut;
pub use self::finder::first_round;
pub use self::idle::{Idle, Told, Untold};
pub use self::lines::report;
pub use self::list::list_check;
pub use self::preview::preview_by;
pub use self::sheet::open;
pub use self::written::write;

pub fn bad(state: &WorkState) -> bool {
    if !(2..=64).contains(&state.n) || !good_limit(state.limit) || state.place > last_place(state.n)
    {
        return true;
    }
    let n = state.n as usize;
    let beyond = !all_stations(n);
    let (used, unused) = state.rows.split_at(n);
    let mut stray = unused.iter().fold(0, |word, row| word | row);
    for (i, row) in used.iter().enumerate() {
        stray |= row & (beyond | bit(i));
    }
    stray != 0
}

/// What a step did: the legs it removed, and whether its verdict was
/// none.
#[derive(Clone, Copy)]
struct Outcome {
    removed: u64,
    none: bool,
}

impl Outcome {
    const NOTHING: Outcome = Outcome {
        removed: 0,
        none: false,
    };

    const NONE: Outcome = Outcome {
        removed: 0,
        none: true,
    };
}

pub fn sweep(state: WorkState) -> Handled {
    by_rows(state, sweep_rows)
}

pub fn chain(state: WorkState) -> Handled {
    by_rows(state, chain_rows)
}

/// A step that works on the rows of all stations alone, called by hand.
#[inline]
fn by_rows(mut state: WorkState, step: fn(&mut [u64]) -> Outcome) -> Handled {
    if bad(&state) {
        return hand::refused(card::BAD_WORK_STATE, state);
    }
    if state.end == End::None {
        return by_hand(state, Outcome::NOTHING);
    }
    let outcome = step(&mut state.rows[..state.n as usize]);
    by_hand(state, outcome)
}

/// The pass, worked through level by level.
pub fn pass(state: WorkState, seed: u64) -> Handled {
    pass_by::<Untold>(state, seed)
}

/// The run, with every pass worked through.
pub fn run(state: WorkState, budget: u32) -> Ran {
    run_by::<Untold>(state, budget)
}

pub fn pass_by<I: Idle>(mut state: WorkState, seed: u64) -> Handled {
    if bad(&state) {
        return hand::refused(card::BAD_WORK_STATE, state);
    }
    if seed == 0 || seed > state.n {
        return hand::refused(card::STRAY_SEED, state);
    }
    if state.end == End::None {
        return by_hand(state, Outcome::NOTHING);
    }
    let mut grid = Grid::<I>::new(&state);
    let outcome = grid.pass(seed as usize - 1, state.limit as u32);
    state.rows = grid.legs.rows;
    by_hand(state, outcome)
}

/// On a good state: is the pass from this seed told to change nothing before any of
/// its levels is filtered by?
pub fn tells_idle(state: &WorkState, seed: u64) -> bool {
    let mut grid = Grid::<Told>::new(state);
    grid.tells_pass(seed as usize - 1, state.limit as u32)
}

/// Sets place, mark and end after a call by hand.
#[inline]
fn by_hand(mut state: WorkState, outcome: Outcome) -> Handled {
    if outcome.none {
        state.end = End::None;
    } else if outcome.removed > 0 {
        state.end = End::Open;
        state.place = 0;
        state.mark = false;
    }
    Handled {
        number: card::TAKEN,
        state,
        removed: outcome.removed,
    }
}

pub fn run_by<I: Idle>(mut state: WorkState, budget: u32) -> Ran {
    if bad(&state) {
        return ran(card::BAD_WORK_STATE, state, 0, 0);
    }
    if state.end != End::Open || budget == 0 {
        return ran(card::TAKEN, state, 0, 0);
    }
    let mut grid = Grid::<I>::new(&state);
    let mut steps = 0;
    let mut removed = 0;
    while state.end == End::Open && steps < budget {
        let outcome = grid.step(state.place, state.limit as u32);
        removed += outcome.removed;
        steps += 1;
        advance(&mut state, outcome);
    }
    state.rows = grid.legs.rows;
    ran(card::TAKEN, state, steps, removed)
}

#[inline]
fn ran(number: Number, state: WorkState, steps: u32, removed: u64) -> Ran {
    Ran {
        number,
        state,
        steps,
        removed,
    }
}

/// Sets place, mark and end after one step of a run.
#[inline]
fn advance(state: &mut WorkState, outcome: Outcome) {
    if outcome.none {
        state.end = End::None;
        return;
    }
    state.mark |= outcome.removed > 0;
    if state.place < last_place(state.n) {
        state.place += 1;
        return;
    }
    if !state.mark {
        state.end = End::Stable;
    }
    state.place = 0;
    state.mark = false;
}
