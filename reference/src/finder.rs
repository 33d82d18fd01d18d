//! The search for the first round (W-210): the one whose list of next stations comes first
//! when lists are compared from station 1 on.
//!
//! A node is a work state as an opening gives it, with the stations up to some number
//! decided: each of them has one leg left. It is run before anything is read from it.

pub mod laws;

use crate::calls::{Calls, Plain};
use crate::card::{self, Number};
use crate::program::BUDGET;
use crate::stable::opened_anew;
use crate::state::{End, WorkState};
use crate::table::stations_of;

#[derive(Clone, Copy, Debug, PartialEq, Eq)]
pub enum Outcome {
    Refused,
    Found,
    NoRound,
    UsedUp,
}

impl Outcome {
    pub const ALL: [Outcome; 4] = [
        Outcome::Refused,
        Outcome::Found,
        Outcome::NoRound,
        Outcome::UsedUp,
    ];

    /// Its value at the C interface.
    pub fn code(self) -> u32 {
        match self {
            Outcome::Refused => 0,
            Outcome::Found => 1,
            Outcome::NoRound => 2,
            Outcome::UsedUp => 3,
        }
    }

    pub fn word(self) -> &'static str {
        match self {
            Outcome::Refused => "refused",
            Outcome::Found => "found",
            Outcome::NoRound => "no round",
            Outcome::UsedUp => "used up",
        }
    }
}

#[derive(Clone, Copy, Debug, PartialEq, Eq)]
pub struct Sought {
    pub number: Number,
    pub outcome: Outcome,
    /// Nodes entered.
    pub nodes: u32,
}

/// The search over plain sets. Only a found round is written to the list.
pub fn first_round(state: &WorkState, budget: u32, list: &mut [u8]) -> Sought {
    first_round_by(&Plain, state, budget, list)
}

/// The same over the run and the list check of any calls.
pub fn first_round_by(
    calls: &dyn Calls,
    state: &WorkState,
    budget: u32,
    list: &mut [u8],
) -> Sought {
    let number = if calls.bad(state) {
        card::BAD_WORK_STATE
    } else if list.len() as u64 != state.n {
        card::WRONG_LIST_LENGTH
    } else {
        card::TAKEN
    };
    if number != card::TAKEN {
        return Sought {
            number,
            outcome: Outcome::Refused,
            nodes: 0,
        };
    }
    let mut descent = Descent {
        calls,
        budget,
        nodes: 0,
        list,
    };
    let outcome = descent.enter(opened_anew(state), 0);
    Sought {
        number,
        outcome,
        nodes: descent.nodes,
    }
}

struct Descent<'a> {
    calls: &'a dyn Calls,
    budget: u32,
    nodes: u32,
    list: &'a mut [u8],
}

impl Descent<'_> {
    /// Searches a node, whose stations up to `decided` are decided, and all below it.
    fn enter(&mut self, node: WorkState, decided: usize) -> Outcome {
        if self.nodes == self.budget {
            return Outcome::UsedUp;
        }
        self.nodes += 1;
        let after = self.calls.run(node, BUDGET).state;
        if after.end == End::None {
            return Outcome::NoRound;
        }
        if decided as u64 == after.n {
            return self.check(&after);
        }
        for next in stations_of(after.rows[decided]) {
            let child = decide(&after, decided + 1, next);
            let outcome = self.enter(child, decided + 1);
            if outcome != Outcome::NoRound {
                return outcome;
            }
        }
        Outcome::NoRound
    }

    /// Checks the list of a node whose stations are all decided.
    fn check(&mut self, after: &WorkState) -> Outcome {
        let numbers = next_stations(after);
        if !self.calls.list_check(after, &numbers).yes {
            return Outcome::NoRound;
        }
        self.list.copy_from_slice(&numbers);
        Outcome::Found
    }
}

/// The child of a node after its run, with one station decided.
fn decide(after: &WorkState, station: usize, next: usize) -> WorkState {
    let mut child = opened_anew(after);
    child.rows[station - 1] = 1 << (next - 1);
    child
}

/// The next station of each, 0 where there is none.
fn next_stations(state: &WorkState) -> Vec<u8> {
    let rows = &state.rows[..state.n as usize];
    let next = |&row: &u64| stations_of(row).first().map_or(0, |&next| next as u8);
    rows.iter().map(next).collect()
}
