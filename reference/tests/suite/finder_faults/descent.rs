//! Searches with one fault each.

use reference::finder::{first_round_by, Outcome, Sought};
use reference::program::BUDGET;
use reference::stable::opened_anew;
use reference::state::cycle;
use reference::table::stations_of;
use reference::{card, Calls, End, Fast, WorkState};

#[derive(Clone, Copy, Debug, PartialEq, Eq)]
pub enum Fault {
    ChildrenFalling,
    FirstChildOnly,
    LastChildLeftOut,
    /// The highest undecided station is decided, not the lowest.
    HighestFirst,
    /// Each decision is written to the list.
    WrittenOnTheWay,
    ListNotWritten,
    /// The list tells the station before each.
    PreviousWritten,
    /// The list tells the numbers of bits.
    CountedFromZero,
    /// A node is counted when it is left.
    CountedAtExit,
    RootNotCounted,
    /// Used up only when one node more is due.
    OneNodeMore,
    /// A budget of 0 enters the root.
    ZeroEntersOne,
    /// Used up although no other node is due.
    UsedUpAtTheEnd,
    /// Used up one node before the budget is.
    UsedUpTooEarly,
    NoRoundAtBudget,
    /// The root has the given end.
    EndUsed,
    /// The root has the given place and mark.
    PlaceAndMarkUsed,
    /// A row with one leg is taken as decided.
    SingleLegsSkipped,
    /// Each row is decided at two levels.
    DecidedTwice,
    OnlyRootRun,
    RootNotRun,
    /// A node with all stations decided is not run.
    LastNotRun,
    /// Runs have a budget of one cycle.
    OneCycleRun,
    LargestLimit,
    SmallestLimit,
    /// A child's table comes from the node's table before its run.
    TableBeforeRun,
    /// A longer list is taken.
    LengthUnchecked,
    LengthCheckedFirst,
    RefusalCounted,
}

pub const FAULTS: [Fault; 29] = [
    Fault::ChildrenFalling,
    Fault::FirstChildOnly,
    Fault::LastChildLeftOut,
    Fault::HighestFirst,
    Fault::WrittenOnTheWay,
    Fault::ListNotWritten,
    Fault::PreviousWritten,
    Fault::CountedFromZero,
    Fault::CountedAtExit,
    Fault::RootNotCounted,
    Fault::OneNodeMore,
    Fault::ZeroEntersOne,
    Fault::UsedUpAtTheEnd,
    Fault::UsedUpTooEarly,
    Fault::NoRoundAtBudget,
    Fault::EndUsed,
    Fault::PlaceAndMarkUsed,
    Fault::SingleLegsSkipped,
    Fault::DecidedTwice,
    Fault::OnlyRootRun,
    Fault::RootNotRun,
    Fault::LastNotRun,
    Fault::OneCycleRun,
    Fault::LargestLimit,
    Fault::SmallestLimit,
    Fault::TableBeforeRun,
    Fault::LengthUnchecked,
    Fault::LengthCheckedFirst,
    Fault::RefusalCounted,
];

impl Fault {
    pub fn first_round(self, state: &WorkState, budget: u32, list: &mut [u8]) -> Sought {
        let n = state.n as usize;
        // A search without a fault, where it is refused.
        let sound = first_round_by(&Fast, state, 0, list);
        let longer = sound.number == card::WRONG_LIST_LENGTH && list.len() > n;
        if sound.number != card::TAKEN && !(longer && self == Fault::LengthUnchecked) {
            return self.refused(state, list, sound);
        }
        let mut descent = Descent {
            fault: self,
            budget: self.budget(budget),
            nodes: 0,
            list: &mut list[..n],
        };
        let mut outcome = descent.enter(self.root(state), &mut Vec::new());
        let mut nodes = descent.nodes;
        match self {
            Fault::RootNotCounted => nodes = nodes.saturating_sub(1),
            Fault::UsedUpAtTheEnd if nodes == budget => outcome = Outcome::UsedUp,
            Fault::NoRoundAtBudget if outcome == Outcome::UsedUp && nodes > 0 => {
                outcome = Outcome::NoRound;
            }
            _ => {}
        }
        Sought {
            number: card::TAKEN,
            outcome,
            nodes,
        }
    }

    fn refused(self, state: &WorkState, list: &[u8], sound: Sought) -> Sought {
        let mut refused = sound;
        match self {
            Fault::LengthCheckedFirst if list.len() as u64 != state.n => {
                refused.number = card::WRONG_LIST_LENGTH;
            }
            Fault::RefusalCounted => refused.nodes = 1,
            _ => {}
        }
        refused
    }

    fn budget(self, budget: u32) -> u32 {
        match self {
            Fault::OneNodeMore => budget.saturating_add(1),
            Fault::ZeroEntersOne => budget.max(1),
            Fault::UsedUpTooEarly => budget.saturating_sub(1),
            _ => budget,
        }
    }

    fn root(self, state: &WorkState) -> WorkState {
        let mut root = opened_anew(state);
        match self {
            Fault::EndUsed => root.end = state.end,
            Fault::PlaceAndMarkUsed => (root.place, root.mark) = (state.place, state.mark),
            Fault::LargestLimit => root.limit = 64,
            Fault::SmallestLimit => root.limit = 1,
            _ => {}
        }
        root
    }
}

struct Descent<'a> {
    fault: Fault,
    budget: u32,
    nodes: u32,
    list: &'a mut [u8],
}

impl Descent<'_> {
    /// Searches a node and all below it. The stations on the way to it are decided, the
    /// last one at the end.
    fn enter(&mut self, node: WorkState, way: &mut Vec<usize>) -> Outcome {
        if self.nodes == self.budget {
            return Outcome::UsedUp;
        }
        let at_exit = u32::from(self.fault == Fault::CountedAtExit);
        self.nodes += 1 - at_exit;
        let outcome = self.go_on(node, way);
        self.nodes += at_exit;
        outcome
    }

    fn go_on(&mut self, node: WorkState, way: &mut Vec<usize>) -> Outcome {
        let after = self.run(node, way);
        if after.end == End::None {
            return Outcome::NoRound;
        }
        let Some(station) = self.undecided(&after, way) else {
            return self.check(&after);
        };
        let table = match self.fault {
            Fault::TableBeforeRun => node,
            _ => after,
        };
        for next in self.children(&after, station) {
            if self.fault == Fault::WrittenOnTheWay {
                self.list[station - 1] = next as u8;
            }
            let mut child = opened_anew(&table);
            child.rows[station - 1] = 1 << (next - 1);
            way.push(station);
            let outcome = self.enter(child, way);
            way.pop();
            if outcome != Outcome::NoRound {
                return outcome;
            }
        }
        Outcome::NoRound
    }

    fn run(&self, node: WorkState, way: &[usize]) -> WorkState {
        let run = match self.fault {
            Fault::OnlyRootRun => way.is_empty(),
            Fault::RootNotRun => !way.is_empty(),
            Fault::LastNotRun => way.len() < node.n as usize,
            _ => true,
        };
        let budget = match self.fault {
            Fault::OneCycleRun => cycle(node.n),
            _ => BUDGET,
        };
        Fast.run(node, if run { budget } else { 0 }).state
    }

    /// The station to decide at a node after its run.
    fn undecided(&self, after: &WorkState, way: &[usize]) -> Option<usize> {
        let n = after.n as usize;
        let single = |station: &usize| after.rows[station - 1].count_ones() == 1;
        match self.fault {
            Fault::HighestFirst => (way.len() < n).then(|| n - way.len()),
            Fault::SingleLegsSkipped => (1..=n).find(|station| !single(station)),
            Fault::DecidedTwice => (way.len() < 2 * n).then(|| way.len() / 2 + 1),
            _ => (way.len() < n).then(|| way.len() + 1),
        }
    }

    fn children(&self, after: &WorkState, station: usize) -> Vec<usize> {
        let mut children = Vec::from_iter(stations_of(after.rows[station - 1]));
        match self.fault {
            Fault::ChildrenFalling => children.reverse(),
            Fault::FirstChildOnly => children.truncate(1),
            Fault::LastChildLeftOut if children.len() > 1 => {
                children.pop();
            }
            _ => {}
        }
        children
    }

    fn check(&mut self, after: &WorkState) -> Outcome {
        let rows = &after.rows[..after.n as usize];
        let next = |row: &u64| row.trailing_zeros() as u8 + 1;
        let numbers: Vec<u8> = rows.iter().map(next).collect();
        if !Fast.list_check(after, &numbers).yes {
            return Outcome::NoRound;
        }
        self.write(&numbers);
        Outcome::Found
    }

    fn write(&mut self, numbers: &[u8]) {
        for (at, &next) in numbers.iter().enumerate() {
            match self.fault {
                Fault::ListNotWritten => {}
                Fault::PreviousWritten => self.list[usize::from(next) - 1] = at as u8 + 1,
                Fault::CountedFromZero => self.list[at] = next - 1,
                _ => self.list[at] = next,
            }
        }
    }
}
