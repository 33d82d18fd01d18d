//! Runs in turns are held to one run with the sum of their budgets.

use super::call::{Answer, Call};
use super::{draw, Found, Session};
use crate::card;
use crate::gen::split_budget;
use crate::run::Ran;
use crate::state::End;
use crate::turns::{budget_of, fault, together, Turn};

/// Budgets that were split and whose turns came to what one run gives.
#[derive(Clone, Debug, Default, PartialEq, Eq)]
pub struct TurnCounts {
    pub splits: u64,
    /// Those with a turn that goes on in mid-cycle with the mark set.
    pub marked: u64,
    /// Those that came to an end before their last turn.
    pub ended_before: u64,
    /// Those with a turn of budget 0.
    pub with_zero: u64,
    /// Those of the largest budget.
    pub largest: u64,
    /// Those on bad states, with 7 each time.
    pub refused: u64,
    /// Those from states that no opening gives.
    pub of_no_opening: u64,
}

impl TurnCounts {
    pub fn add(&mut self, other: &TurnCounts) {
        self.splits += other.splits;
        self.marked += other.marked;
        self.ended_before += other.ended_before;
        self.with_zero += other.with_zero;
        self.largest += other.largest;
        self.refused += other.refused;
        self.of_no_opening += other.of_no_opening;
    }

    /// Is there a split of each kind?
    pub fn complete(&self) -> bool {
        let cut = [self.marked, self.ended_before, self.with_zero, self.largest];
        let states = [self.splits, self.refused, self.of_no_opening];
        !cut.iter().chain(&states).any(|&count| count == 0)
    }

    /// Notes turns in which nothing is wrong.
    fn note(&mut self, turns: &[Turn], budget: u32) {
        let goes_on_marked = |turn: &Turn| turn.before.mark && turn.ran.steps > 0;
        let ended = |turn: &Turn| turn.before.end != End::Open;
        let refused = together(turns).number == card::BAD_WORK_STATE;
        let ends_before = !refused && !ended(&turns[0]) && turns.last().is_some_and(ended);
        self.splits += 1;
        self.marked += u64::from(turns[1..].iter().any(goes_on_marked));
        self.ended_before += u64::from(ends_before);
        self.with_zero += u64::from(turns.iter().any(|turn| turn.budget == 0));
        self.largest += u64::from(budget == u32::MAX);
        self.refused += u64::from(refused);
    }
}

impl Session<'_> {
    /// Turns that the following calls don't see, from the opened state and from one in
    /// mid-cycle.
    pub fn turns_from_the_start(&mut self) -> Found<()> {
        let kept = self.state;
        let amid = draw::amid(&mut self.rng, &kept);
        for state in [kept, amid] {
            self.put(state);
            self.turns_and_back()?;
        }
        self.put(kept);
        Ok(())
    }

    /// The same from the current state, which no opening gives.
    pub fn turns_of_no_opening(&mut self) -> Found<()> {
        let others = self.counts.turns.splits;
        self.turns_and_back()?;
        self.counts.turns.of_no_opening += self.counts.turns.splits - others;
        Ok(())
    }

    /// The same from the current state. Two whole runs on many stations take long, so few
    /// of them are made.
    pub fn turns_and_back(&mut self) -> Found<()> {
        let chance = match self.state.n {
            0..=8 => 50,
            9..=24 => 20,
            _ => 8,
        };
        if self.rng.percent(chance) {
            self.split_and_back()?;
        }
        Ok(())
    }

    /// Turns and one run with the sum of their budgets, both from the current state, that
    /// the following calls don't see.
    pub fn split_and_back(&mut self) -> Found<()> {
        let kept = self.state;
        let budgets = split_budget(&mut self.rng, &kept);
        let budget = budget_of(&budgets).expect("parts of a budget");
        self.in_turns = true;
        let turns = self.take_turns(&budgets)?;
        self.put(kept);
        let one = self.run(budget)?;
        self.in_turns = false;
        // A difference tells the answers of others to the last call, on its state.
        self.state = kept;
        if let Some(reason) = fault(&turns, &one) {
            return Err(self.difference(reason, &Answer::Ran(one)));
        }
        self.put(kept);
        self.counts.turns.note(&turns, budget);
        Ok(())
    }

    fn take_turns(&mut self, budgets: &[u32]) -> Found<Vec<Turn>> {
        let turn = |&budget: &u32| {
            let before = self.state;
            let ran = self.run(budget)?;
            Ok(Turn {
                before,
                budget,
                ran,
            })
        };
        budgets.iter().map(turn).collect()
    }

    pub fn run(&mut self, budget: u32) -> Found<Ran> {
        match self.call(Call::Run { budget })? {
            Answer::Ran(ran) => Ok(ran),
            answer => unreachable!("a run answers {answer}"),
        }
    }
}
