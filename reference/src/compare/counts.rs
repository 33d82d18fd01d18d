//! What the comparison has gone through, in numbers.

use super::call::Answer;
use super::ceilings::CeilingCounts;
use super::cuts::CutCounts;
use super::finder::SearchCounts;
use super::islands::IslandCounts;
use super::neighbours::NeighbourCounts;
use super::previews::PreviewCounts;
use super::stable::StableCounts;
use super::turns::TurnCounts;
use super::valleys::ValleyCounts;
use super::written::WrittenCounts;
use crate::hand::Handled;
use crate::state::{End, WorkState};

/// What the comparison has gone through.
#[derive(Clone, Debug, Default, PartialEq, Eq)]
pub struct Counts {
    pub calls: u64,
    /// Calls that the plain implementation answered too.
    pub plain: u64,
    /// Answers by their number on the radio card.
    pub numbers: [u64; 13],
    pub rounds_confirmed: u64,
    pub legs_removed: u64,
    pub ended_stable: u64,
    pub ended_none: u64,
    /// Sequences on a table with a known round.
    pub watched: u64,
    pub chains: ChainCounts,
    pub islands: IslandCounts,
    pub neighbours: NeighbourCounts,
    pub valleys: ValleyCounts,
    pub written: WrittenCounts,
    pub ceilings: CeilingCounts,
    pub turns: TurnCounts,
    pub stable: StableCounts,
    pub searches: SearchCounts,
    pub cuts: CutCounts,
    pub previews: PreviewCounts,
}

/// Chain steps by hand that were not refused, by what they did.
#[derive(Clone, Debug, Default, PartialEq, Eq)]
pub struct ChainCounts {
    pub struck: u64,
    pub none: u64,
    pub left: u64,
    /// Calls on states whose end was none before.
    pub ended: u64,
}

impl ChainCounts {
    fn add(&mut self, other: &ChainCounts) {
        self.struck += other.struck;
        self.none += other.none;
        self.left += other.left;
        self.ended += other.ended;
    }

    pub fn note(&mut self, before: &WorkState, chained: &Handled) {
        let count = if before.end == End::None {
            &mut self.ended
        } else if chained.state.end == End::None {
            &mut self.none
        } else if chained.removed > 0 {
            &mut self.struck
        } else {
            &mut self.left
        };
        *count += 1;
    }
}

impl Counts {
    pub fn add(&mut self, other: &Counts) {
        self.calls += other.calls;
        self.plain += other.plain;
        for (sum, count) in self.numbers.iter_mut().zip(&other.numbers) {
            *sum += count;
        }
        self.rounds_confirmed += other.rounds_confirmed;
        self.legs_removed += other.legs_removed;
        self.ended_stable += other.ended_stable;
        self.ended_none += other.ended_none;
        self.watched += other.watched;
        self.chains.add(&other.chains);
        self.islands.add(&other.islands);
        self.neighbours.add(&other.neighbours);
        self.valleys.add(&other.valleys);
        self.written.add(&other.written);
        self.ceilings.add(&other.ceilings);
        self.turns.add(&other.turns);
        self.stable.add(&other.stable);
        self.searches.add(&other.searches);
        self.cuts.add(&other.cuts);
        self.previews.add(&other.previews);
    }

    /// What is still missing of the calls that so many sheets have.
    pub fn missing(&self, sheets: u64) -> Option<&'static str> {
        if !self.neighbours.complete() {
            Some("neighbours")
        } else if !self.valleys.complete(sheets) {
            Some("valleys")
        } else if !self.written.complete() {
            Some("written sheets")
        } else if !self.ceilings.complete() {
            Some("ceilings")
        } else if !self.turns.complete() {
            Some("turns")
        } else if !self.stable.complete() {
            Some("stable states")
        } else if !self.searches.complete() {
            Some("searches")
        } else if !self.cuts.complete() {
            Some("cut steps")
        } else if !self.previews.complete() {
            Some("previews")
        } else {
            None
        }
    }

    pub fn note(&mut self, answer: &Answer) {
        self.calls += 1;
        self.numbers[usize::from(answer.number())] += 1;
        match answer {
            Answer::Handled(handled) => self.legs_removed += handled.removed,
            Answer::Cut(cut) => self.legs_removed += cut.removed,
            Answer::Ran(ran) => {
                self.legs_removed += ran.removed;
                if ran.steps > 0 {
                    self.ended_stable += u64::from(ran.state.end == End::Stable);
                    self.ended_none += u64::from(ran.state.end == End::None);
                }
            }
            Answer::Checked(checked) => self.rounds_confirmed += u64::from(checked.yes),
            Answer::Opened(_) | Answer::Preview(_) | Answer::Sought(..) | Answer::Filled(..) => {}
        }
    }
}
