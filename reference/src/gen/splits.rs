//! Budgets for runs in turns.

use super::Xorshift;
use crate::ceiling::ceiling;
use crate::fast;
use crate::program::BUDGET;
use crate::state::{cycle, WorkState};

/// What decides on the budgets that matter on a state.
#[derive(Clone, Copy, Debug)]
struct Lengths {
    cycle: u32,
    /// Those of its whole run.
    steps: u32,
    ceiling: u32,
}

impl Lengths {
    /// A bad state has no cycle, and any will do.
    fn of(state: &WorkState) -> Lengths {
        if fast::bad(state) {
            return Lengths {
                cycle: 4,
                steps: 0,
                ceiling: 12,
            };
        }
        Lengths {
            cycle: cycle(state.n),
            steps: fast::run_by::<fast::Told>(*state, u32::MAX).steps,
            ceiling: ceiling(state),
        }
    }

    /// Up to three cycles, about the steps of the whole run, or more than those.
    fn budget(self, rng: &mut Xorshift) -> u32 {
        match rng.below(12) {
            0..=3 => rng.below(3 * self.cycle as usize + 1) as u32,
            4 => self.steps.saturating_sub(1),
            5 | 6 => self.steps,
            7 => self.steps + 1,
            8 => self.ceiling,
            9 => BUDGET,
            _ => u32::MAX,
        }
    }

    /// Where a budget is cut: at its start, at its end, in the first cycle, in the run
    /// or anywhere.
    fn cut(self, rng: &mut Xorshift, budget: u32) -> u32 {
        let most = match rng.below(10) {
            0 => return 0,
            1 => return budget,
            2 => budget,
            3 | 4 => budget.min(self.cycle),
            _ if self.steps == 0 => budget.min(self.cycle),
            _ => budget.min(self.steps),
        };
        rng.between(0, most as usize) as u32
    }
}

/// Budgets of 2 to 5 turns from a state. Some are 0, and their sum is a budget that
/// matters there, sometimes 4,294,967,295.
pub fn split_budget(rng: &mut Xorshift, state: &WorkState) -> Vec<u32> {
    let lengths = Lengths::of(state);
    let budget = lengths.budget(rng);
    let count = rng.between(1, 4);
    let cuts = (0..count).map(|_| lengths.cut(rng, budget)).collect();
    cut_at(budget, cuts)
}

/// The parts of a budget that is cut after so many steps.
pub fn cut_at(budget: u32, mut cuts: Vec<u32>) -> Vec<u32> {
    cuts.extend([0, budget]);
    cuts.sort_unstable();
    cuts.windows(2).map(|pair| pair[1] - pair[0]).collect()
}
