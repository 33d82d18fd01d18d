//! The sweep: legs that lose their station to another leg that must be driven.

use std::collections::BTreeSet;

use crate::card;
use crate::hand::{self, Handled, Verdict};
use crate::state::{self, WorkState};
use crate::table::{Leg, LegTable};

pub fn sweep(state: WorkState) -> Handled {
    if state::bad(&state) {
        return hand::refused(card::BAD_WORK_STATE, state);
    }
    hand::by_hand(state, sweep_table)
}

pub fn sweep_table(table: &mut LegTable) -> Verdict {
    let successors: Vec<_> = table
        .stations()
        .map(|i| table.successors(i).clone())
        .collect();
    let predecessors: Vec<_> = table.stations().map(|j| table.predecessors(j)).collect();
    if successors
        .iter()
        .chain(&predecessors)
        .any(BTreeSet::is_empty)
    {
        return Verdict::None;
    }
    let only_next = only_members(&successors);
    let only_previous = only_members(&predecessors);
    let gone: Vec<Leg> = table
        .legs()
        .into_iter()
        .filter(|&(i, j)| another_has(&only_next, i, j) || another_has(&only_previous, j, i))
        .collect();
    table.strike(&gone);
    Verdict::Undecided
}

/// For each station of a list, the only member of its set, if it has just one.
fn only_members(sets: &[BTreeSet<usize>]) -> Vec<Option<usize>> {
    sets.iter()
        .map(|set| set.first().copied().filter(|_| set.len() == 1))
        .collect()
}

/// Whether a station other than `station` has `target` as its only member.
fn another_has(only: &[Option<usize>], station: usize, target: usize) -> bool {
    (1..=only.len()).any(|k| k != station && only[k - 1] == Some(target))
}
