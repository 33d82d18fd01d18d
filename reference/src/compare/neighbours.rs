//! Passes and runs with components that are grown by other neighbours, and counts
//! of the calls that would show it.

use std::collections::BTreeSet;

use crate::choices::SeparatorGraph;
use crate::graph;
use crate::hand::{Handled, Verdict};
use crate::pass::pass_by;
use crate::run::{run_with, Ran};
use crate::state::{End, WorkState};
use crate::table::LegTable;

/// Calls on tables of more stations are not counted: a plain run takes long there.
const MOST_STATIONS: u64 = 12;

/// A pass that is handed the components of each level it looks at.
pub fn pass_with(
    table: &mut LegTable,
    seed: usize,
    limit: usize,
    mut components: impl FnMut(&LegTable, &BTreeSet<usize>) -> Vec<BTreeSet<usize>>,
) -> Verdict {
    pass_by(table, seed, limit, |table, level| {
        SeparatorGraph::new(table, level, &components(table, level))
    })
}

/// Does a pass come to a level with other neighbours than those at its start? No
/// result tells whether they were gathered again: legs between levels stay, so that
/// the levels before are one component with or without the legs inside them.
pub fn neighbours_change(table: &LegTable, seed: usize, limit: usize) -> bool {
    let at_start = table.neighbour_words();
    let mut change = false;
    pass_with(&mut table.clone(), seed, limit, |table, level| {
        change |= table.neighbour_words() != at_start;
        graph::components(table, level)
    });
    change
}

/// Components grown from their lowest station by outgoing legs alone.
pub fn outgoing_components(table: &LegTable, separator: &BTreeSet<usize>) -> Vec<BTreeSet<usize>> {
    let mut seen = separator.clone();
    let mut components = Vec::new();
    for start in table.stations() {
        let mut waiting = Vec::from_iter(seen.insert(start).then_some(start));
        let mut component = BTreeSet::new();
        while let Some(i) = waiting.pop() {
            component.insert(i);
            waiting.extend(table.successors(i).iter().filter(|&&j| seen.insert(j)));
        }
        if !component.is_empty() {
            components.push(component);
        }
    }
    components
}

/// A run in which the neighbours of the first level stand for those of all later
/// ones, also in the passes that follow.
pub fn run_by_first_neighbours(state: WorkState, budget: u32) -> Ran {
    let mut first = None;
    run_with(state, budget, |table, seed, limit| {
        pass_with(table, seed, limit, |table, level| {
            let first = first.get_or_insert_with(|| table.clone());
            graph::components(first, level)
        })
    })
}

/// Calls that were not refused, on tables of few stations.
#[derive(Clone, Debug, Default, PartialEq, Eq)]
pub struct NeighbourCounts {
    /// Passes by hand that came to a level with other neighbours than at first.
    pub changed: u64,
    /// Passes by hand that outgoing legs alone would have answered otherwise.
    pub by_outgoing: u64,
    /// Runs that the neighbours of their first level would have answered otherwise.
    pub by_first: u64,
}

impl NeighbourCounts {
    pub fn add(&mut self, other: &NeighbourCounts) {
        self.changed += other.changed;
        self.by_outgoing += other.by_outgoing;
        self.by_first += other.by_first;
    }

    /// Is there a call of each kind?
    pub fn complete(&self) -> bool {
        self.changed > 0 && self.by_outgoing > 0 && self.by_first > 0
    }

    pub fn note_pass(&mut self, before: &WorkState, seed: u64, passed: &Handled) {
        if before.n > MOST_STATIONS || before.end == End::None {
            return;
        }
        let (table, seed, limit) = (before.table(), seed as usize, before.limit as usize);
        let changed = passed.removed > 0 && neighbours_change(&table, seed, limit);
        self.changed += u64::from(changed);
        let mut otherwise = table;
        let verdict = pass_with(&mut otherwise, seed, limit, outgoing_components);
        let none = passed.state.end == End::None;
        let same = (verdict == Verdict::None) == none && otherwise.rows() == passed.state.rows;
        self.by_outgoing += u64::from(!same);
    }

    pub fn note_run(&mut self, before: &WorkState, budget: u32, ran: &Ran) {
        // Neighbours stay the same where no leg goes.
        if before.n <= MOST_STATIONS && ran.removed > 0 {
            let otherwise = run_by_first_neighbours(*before, budget);
            self.by_first += u64::from(otherwise != *ran);
        }
    }
}
