//! What W-210 says of the answers of searches.

use super::{first_round_by, Outcome, Sought};
use crate::calls::Calls;
use crate::card::{self, Number};
use crate::list::list_check;
use crate::stable::Fault;
use crate::state::{self, WorkState};

/// A search with what it was given.
#[derive(Clone, Debug, PartialEq, Eq)]
pub struct Search {
    pub state: WorkState,
    pub budget: u32,
    /// The list as it was lent and as it was left.
    pub lent: Vec<u8>,
    pub left: Vec<u8>,
    pub sought: Sought,
}

impl Search {
    pub fn ends_found(&self) -> bool {
        self.sought.outcome == Outcome::Found
    }

    /// Has it come to an end before its budget was used up?
    pub fn is_whole(&self) -> bool {
        matches!(self.sought.outcome, Outcome::Found | Outcome::NoRound)
    }

    /// The number of every search on this state with a list of this length.
    fn number_due(&self) -> Number {
        if state::bad(&self.state) {
            card::BAD_WORK_STATE
        } else if self.lent.len() as u64 != self.state.n {
            card::WRONG_LIST_LENGTH
        } else {
            card::TAKEN
        }
    }
}

/// Of a search by itself.
pub fn fault(search: &Search) -> Fault {
    let Sought {
        number,
        outcome,
        nodes,
    } = search.sought;
    let due = search.number_due();
    if number != due || (outcome == Outcome::Refused) != (due != card::TAKEN) {
        Some("a search has another number or outcome than its state and list")
    } else if outcome != Outcome::Found && search.left != search.lent {
        Some("a search without a round writes to the list")
    } else if outcome == Outcome::Refused && nodes != 0 {
        Some("a refused search counts nodes")
    } else if nodes > search.budget || search.is_whole() && nodes == 0 {
        Some("a search counts more nodes than its budget, or none")
    } else if outcome == Outcome::UsedUp && nodes != search.budget {
        Some("a search says used up with another count than its budget")
    } else if search.ends_found() {
        fault_of_found(search)
    } else {
        None
    }
}

fn fault_of_found(search: &Search) -> Fault {
    if !list_check(&search.state, &search.left).yes {
        Some("a search finds a list that is no round of its table")
    } else if u64::from(search.sought.nodes) <= search.state.n {
        Some("a search finds a round before it has decided every station")
    } else {
        None
    }
}

/// Of a search beside rounds of its table: all of them or some.
pub fn fault_beside_rounds(search: &Search, rounds: &[Vec<usize>]) -> Fault {
    let before = |round: &Vec<usize>| {
        let found = search.left.iter().map(|&next| usize::from(next));
        round.iter().copied().lt(found)
    };
    if search.sought.outcome == Outcome::NoRound && !rounds.is_empty() {
        Some("a search finds no round, but its table has one")
    } else if search.ends_found() && rounds.iter().any(before) {
        Some("a search finds a list, but a round comes before it")
    } else {
        None
    }
}

/// Of a search with another budget than one before it on the same state.
pub fn fault_beside_budget(search: &Search, before: &Search) -> Fault {
    let due = if search.budget < before.sought.nodes {
        Sought {
            outcome: Outcome::UsedUp,
            nodes: search.budget,
            ..before.sought
        }
    } else {
        before.sought
    };
    if !before.is_whole() && search.budget > before.budget {
        None
    } else if search.sought != due {
        Some("a search with another budget has another outcome or count")
    } else if search.ends_found() && search.left != before.left {
        Some("a search with another budget finds another list")
    } else {
        None
    }
}

/// Of a search on a state that differs by place, mark and end alone.
pub fn fault_beside_moved(search: &Search, before: &Search) -> Fault {
    let same = (search.sought, &search.left) == (before.sought, &before.left);
    (!same).then_some("a search uses the given place, mark or end")
}

/// Of a search on another state whose table has the same rounds: after calls, or with
/// another limit.
pub fn fault_beside_same_rounds(search: &Search, before: &Search) -> Fault {
    let whole = search.is_whole() && before.is_whole();
    let same = (search.sought.outcome, &search.left) == (before.sought.outcome, &before.left);
    (whole && !same).then_some("a search finds otherwise on a table with the same rounds")
}

/// Of a search beside the runs and list checks of the same calls.
pub fn fault_beside_own_runs(search: &Search, calls: &dyn Calls) -> Fault {
    let mut list = search.lent.clone();
    let sought = first_round_by(calls, &search.state, search.budget, &mut list);
    let same = (search.sought, &search.left) == (sought, &list);
    (!same).then_some("a search differs from one by the runs of the same calls")
}
