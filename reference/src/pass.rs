//! The pass with a seed: every station has to be in a level, and each inner level
//! is a separator to filter by.

use std::collections::BTreeSet;

use crate::card;
use crate::choices::SeparatorGraph;
use crate::graph;
use crate::hand::{self, Handled, Verdict};
use crate::state::{self, WorkState};
use crate::table::{Leg, LegTable};

pub fn pass(state: WorkState, seed: u64) -> Handled {
    if state::bad(&state) {
        return hand::refused(card::BAD_WORK_STATE, state);
    }
    if seed == 0 || seed > state.n {
        return hand::refused(card::STRAY_SEED, state);
    }
    hand::by_hand(state, |table| {
        pass_table(table, seed as usize, state.limit as usize)
    })
}

pub fn pass_table(table: &mut LegTable, seed: usize, limit: usize) -> Verdict {
    pass_by(table, seed, limit, |table, separator| {
        SeparatorGraph::new(table, separator, &graph::components(table, separator))
    })
}

/// A pass that is handed the marks of each level it looks at. An unreached station
/// gives none before any level is looked at. The levels belong to the table at the
/// start, components and marks to the table that the levels before have left.
pub fn pass_by(
    table: &mut LegTable,
    seed: usize,
    limit: usize,
    mut marked: impl FnMut(&LegTable, &BTreeSet<usize>) -> SeparatorGraph,
) -> Verdict {
    let levels = graph::levels(table, seed);
    if !graph::unreached(table, &levels).is_empty() {
        return Verdict::None;
    }
    let inner = graph::inner(&levels).iter();
    for level in inner.filter(|level| level.len() <= limit) {
        let graph = marked(table, level);
        if strike_by(table, &graph) == Verdict::None {
            return Verdict::None;
        }
    }
    Verdict::Undecided
}

/// Strikes the legs inside the separator that no choice takes bare.
pub fn strike_by(table: &mut LegTable, graph: &SeparatorGraph) -> Verdict {
    let Some(kept) = graph.bare_legs() else {
        return Verdict::None;
    };
    let inside = |&(i, j): &Leg| graph.separator.contains(&i) && graph.separator.contains(&j);
    let gone: Vec<Leg> = table
        .legs()
        .into_iter()
        .filter(|leg| inside(leg) && !kept.contains(leg))
        .collect();
    table.strike(&gone);
    Verdict::Undecided
}
