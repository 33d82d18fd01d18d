//! Tables on which the pass with the last seed alone removes legs.

use super::{Family, Xorshift};
use crate::fast;
use crate::state::{WorkState, LARGEST_LIMIT};
use crate::table::LegTable;

/// A table of 7 to 16 stations. On most tables other seeds do the same, so that a run
/// without its last pass would leave as much.
pub fn last_seed_alone(rng: &mut Xorshift) -> LegTable {
    loop {
        let n = rng.between(7, 16);
        let (family, n) = rng.pick(&[(Family::RingWithRungs, 7), (Family::ClustersAtTwo, n)]);
        let table = family.table(rng, n);
        if last_seed_tells(&table) {
            return table;
        }
    }
}

/// Does the pass with the last seed remove legs where all other steps leave the table?
fn last_seed_tells(table: &LegTable) -> bool {
    let mut state = WorkState::opened(table, LARGEST_LIMIT);
    loop {
        let legs = state.legs();
        state = other_steps(state);
        if state.legs() == legs {
            return fast::pass(state, state.n).removed > 0;
        }
    }
}

/// Sweep, chain step and all passes but the last; after none they change nothing.
fn other_steps(state: WorkState) -> WorkState {
    let chained = fast::chain(fast::sweep(state).state).state;
    (1..state.n).fold(chained, |state, seed| fast::pass(state, seed).state)
}
