//! Tests of the plain calls against the definitions, and of the fast calls
//! against the plain ones; the comparison that other calls go through.

mod catalogue;
mod ceiling;
mod ceiling_faults;
mod chains;
mod choices;
mod compare;
mod cut_faults;
mod cut_vectors;
mod cuts;
mod fast;
mod fast_cut;
mod fast_finder;
mod finder;
mod finder_faults;
mod finder_vectors;
mod idle;
mod islands;
mod neighbours;
mod openings;
mod other_cuts;
mod other_pass;
mod other_previews;
mod other_runs;
mod other_searches;
mod parts;
mod pivots;
mod preview_faults;
mod preview_vectors;
mod previews;
mod programs;
mod scripts;
mod soundness;
mod stable;
mod stable_faults;
mod stable_vectors;
mod states;
mod stored;
mod turn_faults;
mod turns;
mod turns_vectors;
mod valley_faults;
mod valleys;
mod wall;
mod written;
mod yard;

use reference::{Calls, Fast, LegTable, Plain, Telling, WorkState};

/// All implementations, for what has to hold of each.
const ALL: [&dyn Calls; 3] = [&Plain, &Fast, &Telling];

/// Those over words of bits.
const FAST: [&dyn Calls; 2] = [&Fast, &Telling];

/// The state that a taken opening gives for a table.
fn opened(table: &LegTable) -> WorkState {
    WorkState::opened(table, 64)
}

/// The legs of one state that another lacks.
fn removed_legs(before: &WorkState, after: &WorkState) -> Vec<(usize, usize)> {
    let kept = after.table();
    let mut legs = before.table().legs();
    legs.retain(|&(i, j)| !kept.has(i, j));
    legs
}
