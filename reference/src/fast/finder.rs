//! The search for the first round (W-210) over words of bits.
//!
//! Two kinds of nodes are counted and not run, which changes neither answer nor count:
//!
//! - *Forced nodes.* The decided row has one leg already, so the child has its parent's
//!   table. That is stable, and a run leaves it as it is.
//! - *Quick nones.* Sweeps and chain steps by turns give none. They strike no leg that a
//!   stable table inside the node's keeps, so then the run gives none too. A run of a node
//!   that they do not settle starts from the node's own table: from what they leave it
//!   might end otherwise.

use super::bits::{bit, indices, is_single, lowest};
use super::chain::chain_rows;
use super::list::list_check;
use super::sweep::sweep_rows;
use super::{run_by, Told};
use crate::card;
use crate::finder::{Outcome, Sought};
use crate::program::BUDGET;
use crate::stable::opened_anew;
use crate::state::{End, WorkState};

pub fn first_round(state: &WorkState, budget: u32, list: &mut [u8]) -> Sought {
    // The checks are those of the list check.
    let number = list_check(state, list).number;
    let mut search = Search {
        budget,
        nodes: 0,
        list,
    };
    let outcome = match number {
        card::TAKEN => search.enter(opened_anew(state), 0),
        _ => Outcome::Refused,
    };
    Sought {
        number,
        outcome,
        nodes: search.nodes,
    }
}

struct Search<'a> {
    budget: u32,
    nodes: u32,
    list: &'a mut [u8],
}

impl Search<'_> {
    /// Counts one more node, if the budget has it.
    #[inline]
    fn count(&mut self) -> bool {
        let left = self.nodes < self.budget;
        self.nodes += u32::from(left);
        left
    }

    /// Searches a node, whose first stations are decided, and all below it.
    fn enter(&mut self, node: WorkState, decided: usize) -> Outcome {
        if !self.count() {
            return Outcome::UsedUp;
        }
        if comes_to_none(&node) {
            return Outcome::NoRound;
        }
        let after = run_by::<Told>(node, BUDGET).state;
        match after.end {
            End::None => Outcome::NoRound,
            _ => self.descend(&after, decided),
        }
    }

    /// Searches all below a node that has been run and is stable.
    fn descend(&mut self, after: &WorkState, mut decided: usize) -> Outcome {
        let rows = &after.rows[..after.n as usize];
        while decided < rows.len() && is_single(rows[decided]) {
            if !self.count() {
                return Outcome::UsedUp;
            }
            decided += 1;
        }
        if decided == rows.len() {
            return self.check(after);
        }
        for next in indices(rows[decided]) {
            let mut child = opened_anew(after);
            child.rows[decided] = bit(next);
            let outcome = self.enter(child, decided + 1);
            if outcome != Outcome::NoRound {
                return outcome;
            }
        }
        Outcome::NoRound
    }

    /// Checks the list of a stable node whose rows have one leg each.
    fn check(&mut self, after: &WorkState) -> Outcome {
        let mut numbers = [0; 64];
        let numbers = &mut numbers[..after.n as usize];
        for (number, &row) in numbers.iter_mut().zip(&after.rows) {
            *number = lowest(row) as u8 + 1;
        }
        if !list_check(after, numbers).yes {
            return Outcome::NoRound;
        }
        self.list.copy_from_slice(numbers);
        Outcome::Found
    }
}

/// Do sweeps and chain steps by turns give none?
fn comes_to_none(node: &WorkState) -> bool {
    let mut rows = node.rows;
    let rows = &mut rows[..node.n as usize];
    loop {
        let swept = sweep_rows(rows);
        if swept.none {
            return true;
        }
        let chained = chain_rows(rows);
        if chained.none {
            return true;
        }
        if swept.removed + chained.removed == 0 {
            return false;
        }
    }
}
