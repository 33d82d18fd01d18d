//! Stable states get every step by hand again, and are opened anew.

use super::call::{Answer, Call};
use super::{Found, Session};
use crate::cut::Cut;
use crate::hand::Handled;
use crate::program::BUDGET;
use crate::stable::{fault_of_run, fault_of_run_anew, fault_of_sheet};
use crate::stable::{fault_of_state, fault_of_step, fault_of_stray_seed};
use crate::stable::{opened_anew, stray_seeds, Fault};
use crate::state::{cycle, End, WorkState};
use crate::written::WRITTEN_MOST;

/// Stable states that came out as is said of them, and calls on them.
#[derive(Clone, Debug, Default, PartialEq, Eq)]
pub struct StableCounts {
    pub states: u64,
    /// Those that calls had led to after a step by hand had removed legs.
    pub after_hand: u64,
    /// Sweeps, chain steps and passes by hand.
    pub steps: u64,
    /// Passes by hand with a stray seed, refused with 8.
    pub stray: u64,
    /// Runs on the state opened anew, through one cycle and back to it.
    pub anew: u64,
    /// Sheets that were written and opened the state anew.
    pub sheets: u64,
    /// Made-up stable states that a step by hand changes.
    pub made_up: u64,
}

impl StableCounts {
    pub fn add(&mut self, other: &StableCounts) {
        self.states += other.states;
        self.after_hand += other.after_hand;
        self.steps += other.steps;
        self.stray += other.stray;
        self.anew += other.anew;
        self.sheets += other.sheets;
        self.made_up += other.made_up;
    }

    /// Is there one of each kind?
    pub fn complete(&self) -> bool {
        let states = [self.states, self.after_hand, self.made_up];
        let calls = [self.steps, self.stray, self.anew, self.sheets];
        !states.iter().chain(&calls).any(|&count| count == 0)
    }
}

fn steps_by_hand(n: u64) -> impl Iterator<Item = Call> {
    let passes = (1..=n).map(|seed| Call::Pass { seed });
    [Call::Sweep, Call::Chain].into_iter().chain(passes)
}

/// How the calls of a sequence have come to the current state.
#[derive(Clone, Copy, Debug, Default)]
pub struct Way {
    /// Has one of the steps by hand removed legs?
    pub by_hand: bool,
    /// Has one of the cut steps?
    by_cut: bool,
    /// The last stable state on it.
    held: Option<WorkState>,
}

impl Way {
    pub fn note(&mut self, answer: &Answer) {
        self.by_hand |= matches!(answer, Answer::Handled(handled) if handled.removed > 0);
    }

    /// A cut step is a step by hand.
    pub fn note_cut(&mut self, cut: &Cut) {
        self.by_hand |= cut.removed > 0;
        self.by_cut |= cut.removed > 0;
    }
}

impl Session<'_> {
    /// Holds the current state to what is said of stable ones, if calls from an opened
    /// sheet have led to it and it was not held just before. The following calls don't
    /// see it.
    pub fn hold_stable(&mut self) -> Found<()> {
        let stable = self.state;
        if stable.end != End::Stable || self.way.held == Some(stable) {
            return Ok(());
        }
        self.way.held = Some(stable);
        self.put(stable);
        if let Some(reason) = fault_of_state(&stable) {
            return Err(self.difference(reason, &stable));
        }
        self.on_stable(|session| {
            session.steps_on(&stable)?;
            session.runs_on(&stable)?;
            session.sheet_of(&stable)?;
            session.previews_on(&stable)
        })?;
        self.put(stable);
        self.counts.stable.states += 1;
        self.counts.stable.after_hand += u64::from(self.way.by_hand);
        self.counts.cuts.stable += u64::from(self.way.by_cut);
        Ok(())
    }

    fn steps_on(&mut self, stable: &WorkState) -> Found<()> {
        for call in steps_by_hand(stable.n) {
            self.step_on(stable, call, fault_of_step)?;
            self.counts.stable.steps += 1;
        }
        for seed in stray_seeds(stable.n) {
            self.step_on(stable, Call::Pass { seed }, fault_of_stray_seed)?;
            self.counts.stable.stray += 1;
        }
        Ok(())
    }

    /// A call by hand on the current state, which a sound one hands back.
    fn step_on(
        &mut self,
        stable: &WorkState,
        call: Call,
        fault: fn(&WorkState, &Handled) -> Fault,
    ) -> Found<()> {
        let answer = self.call(call)?;
        let Answer::Handled(step) = &answer else {
            unreachable!("a step by hand answers {answer}");
        };
        self.hold_to(*stable, fault(stable, step), &answer)
    }

    /// A run on the state, and runs on it opened anew: through one cycle, with a larger
    /// budget, and with one step less.
    fn runs_on(&mut self, stable: &WorkState) -> Found<()> {
        let cycle = cycle(stable.n);
        let budget = self.rng.pick(&[1, cycle, BUDGET, u32::MAX]);
        let ran = self.run(budget)?;
        self.hold_to(*stable, fault_of_run(stable, &ran), &Answer::Ran(ran))?;
        let larger = self.rng.pick(&[cycle + 1, 2 * cycle, BUDGET, u32::MAX]);
        for budget in [cycle, cycle - 1, larger] {
            self.put(opened_anew(stable));
            self.run_anew(stable, budget)?;
        }
        Ok(())
    }

    /// A run on the current state, which is the stable one opened anew.
    fn run_anew(&mut self, stable: &WorkState, budget: u32) -> Found<()> {
        let anew = self.state;
        let ran = self.run(budget)?;
        let fault = fault_of_run_anew(stable, budget, &ran);
        self.hold_to(anew, fault, &Answer::Ran(ran))?;
        self.counts.stable.anew += u64::from(ran.state == *stable);
        Ok(())
    }

    /// Writes the sheet of what is left, opens it and runs.
    fn sheet_of(&mut self, stable: &WorkState) -> Found<()> {
        let (limit, length) = (stable.limit, WRITTEN_MOST);
        self.put(*stable);
        let sheet = self.call(Call::Write { length })?.written().to_vec();
        let answer = self.call(Call::OpenWritten { limit, sheet })?;
        let Answer::Opened(opened) = &answer else {
            unreachable!("an opening answers {answer}");
        };
        self.hold_to(*stable, fault_of_sheet(stable, opened), &answer)?;
        self.run_anew(stable, cycle(stable.n))?;
        self.counts.stable.sheets += 1;
        Ok(())
    }

    /// A difference tells the answers of others to the last call, on its state.
    pub fn hold_to(&mut self, before: WorkState, fault: Fault, answer: &Answer) -> Found<()> {
        let Some(reason) = fault else {
            return Ok(());
        };
        self.state = before;
        Err(self.difference(reason, answer))
    }

    /// Steps by hand on the current table, said to be stable, until one changes
    /// something: without the calls from an opened sheet nothing is claimed. The
    /// following calls don't see it.
    pub fn made_up_stable(&mut self) -> Found<()> {
        let kept = self.state;
        let end = End::Stable;
        let made_up = WorkState { end, ..kept };
        self.put(made_up);
        self.on_stable(|session| {
            let mut calls = steps_by_hand(kept.n);
            while let (Some(call), true) = (calls.next(), session.state == made_up) {
                session.call(call)?;
            }
            Ok(())
        })?;
        self.counts.stable.made_up += u64::from(self.state != made_up);
        self.put(kept);
        Ok(())
    }

    /// Calls with draws and counts of their own.
    fn on_stable(&mut self, calls: impl FnOnce(&mut Self) -> Found<()>) -> Found<()> {
        self.on_stable = true;
        self.apart(calls)?;
        self.on_stable = false;
        Ok(())
    }
}
