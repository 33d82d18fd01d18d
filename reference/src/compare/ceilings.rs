//! Every run is held to its ceiling, and runs that would show a break are counted.

use super::call::{Answer, Call};
use super::{draw, Found, Session};
use crate::ceiling::{ceiling, in_mid_cycle, Nearness};
use crate::fast;
use crate::program::BUDGET;
use crate::run::Ran;
use crate::state::{End, WorkState};

/// What a run from a good state does against its ceiling.
pub fn fault(before: &WorkState, budget: u32, ran: &Ran) -> Option<&'static str> {
    let ceiling = ceiling(before);
    if ran.steps > ceiling {
        Some("the run takes more steps than its ceiling")
    } else if budget >= ceiling && ran.state.end == End::Open {
        Some("the run is open, but its budget allows its ceiling")
    } else {
        None
    }
}

/// The budget of the program is above every ceiling, so its text never does.
pub fn says_open(text: &[u8]) -> bool {
    let words = b" end open\n";
    text.windows(words.len()).any(|part| part == words)
}

/// Runs from open states whose budget is at least their ceiling.
#[derive(Clone, Debug, Default, PartialEq, Eq)]
pub struct CeilingCounts {
    /// Those from the start of a cycle.
    pub from_start: CountedRuns,
    pub from_mid_cycle: CountedRuns,
    /// Those with a budget of just the ceiling.
    pub just: u64,
    /// Those with the budget of the program.
    pub program: u64,
}

/// Runs, and the one of them with the largest ratio of its steps to its ceiling.
#[derive(Clone, Debug, Default, PartialEq, Eq)]
pub struct CountedRuns {
    pub count: u64,
    pub nearest: Nearness,
}

impl CountedRuns {
    fn add(&mut self, other: &CountedRuns) {
        self.count += other.count;
        self.nearest = self.nearest.max(other.nearest);
    }
}

impl CeilingCounts {
    pub fn add(&mut self, other: &CeilingCounts) {
        self.from_start.add(&other.from_start);
        self.from_mid_cycle.add(&other.from_mid_cycle);
        self.just += other.just;
        self.program += other.program;
    }

    pub fn runs(&self) -> u64 {
        self.from_start.count + self.from_mid_cycle.count
    }

    /// Is there a run of each kind?
    pub fn complete(&self) -> bool {
        let (from_start, from_mid_cycle) = (self.from_start.count, self.from_mid_cycle.count);
        ![from_start, from_mid_cycle, self.just, self.program].contains(&0)
    }

    /// Notes a run that was not refused.
    pub fn note(&mut self, before: &WorkState, budget: u32, ran: &Ran) {
        let ceiling = ceiling(before);
        if before.end != End::Open || budget < ceiling {
            return;
        }
        let runs = if in_mid_cycle(before) {
            &mut self.from_mid_cycle
        } else {
            &mut self.from_start
        };
        runs.add(&CountedRuns {
            count: 1,
            nearest: Nearness::of(before, ran),
        });
        self.just += u64::from(budget == ceiling);
        self.program += u64::from(budget == BUDGET);
    }
}

impl Session<'_> {
    /// Two whole runs that the following calls don't see: from the opened state with just
    /// its ceiling, from one in mid-cycle with that or with the program's budget.
    pub fn ceilings_and_back(&mut self) -> Found<()> {
        let kept = self.state;
        let amid = draw::amid(&mut self.rng, &kept);
        let budget = self.rng.pick(&[ceiling(&amid), BUDGET]);
        for (state, budget) in [(kept, ceiling(&kept)), (amid, budget)] {
            self.put(state);
            self.call(Call::Run { budget })?;
        }
        self.put(kept);
        Ok(())
    }

    /// Holds a run on the current state to its ceiling, if that is good.
    pub fn hold_to_ceiling(&self, call: &Call, answer: &Answer) -> Found<()> {
        let (Call::Run { budget }, Answer::Ran(ran)) = (call, answer) else {
            return Ok(());
        };
        if fast::bad(&self.state) {
            return Ok(());
        }
        match fault(&self.state, *budget, ran) {
            Some(reason) => Err(self.difference(reason, answer)),
            None => Ok(()),
        }
    }
}
