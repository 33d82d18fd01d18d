//! How long a run can take: the ceiling of W-206.

use std::cmp::Ordering;
use std::fmt;

use crate::run::Ran;
use crate::state::{cycle, WorkState};

/// Has the cycle of a state begun? At place 0 with the mark clear it has not.
pub fn in_mid_cycle(state: &WorkState) -> bool {
    state.place != 0 || state.mark
}

/// W-206: a run from a good state takes no more steps than these before its end is
/// stable or none. Every cycle but the last strikes a leg. One that had begun before the
/// run need not: it may have struck its legs already.
pub fn ceiling(state: &WorkState) -> u32 {
    let cycle = u64::from(cycle(state.n));
    let begun = u64::from(in_mid_cycle(state));
    let steps = cycle * (state.legs() + 1 + begun);
    u32::try_from(steps).expect("a good state")
}

/// How near a run came to its ceiling.
#[derive(Clone, Copy, Debug, PartialEq, Eq)]
pub struct Nearness {
    pub steps: u32,
    pub ceiling: u32,
}

impl Nearness {
    pub fn of(before: &WorkState, ran: &Ran) -> Nearness {
        Nearness {
            steps: ran.steps,
            ceiling: ceiling(before),
        }
    }

    pub fn ratio(&self) -> f64 {
        f64::from(self.steps) / f64::from(self.ceiling)
    }
}

impl fmt::Display for Nearness {
    fn fmt(&self, out: &mut fmt::Formatter) -> fmt::Result {
        let (steps, ceiling, ratio) = (self.steps, self.ceiling, self.ratio());
        write!(out, "{ratio:.3} ({steps} of {ceiling} steps)")
    }
}

/// That of no run.
impl Default for Nearness {
    fn default() -> Nearness {
        Nearness {
            steps: 0,
            ceiling: 1,
        }
    }
}

/// By the ratio, and by the steps where it is the same.
impl Ord for Nearness {
    fn cmp(&self, other: &Nearness) -> Ordering {
        let across = |steps: u32, ceiling: u32| u64::from(steps) * u64::from(ceiling);
        let ratio = across(self.steps, other.ceiling).cmp(&across(other.steps, self.ceiling));
        ratio.then((self.steps, self.ceiling).cmp(&(other.steps, other.ceiling)))
    }
}

impl PartialOrd for Nearness {
    fn partial_cmp(&self, other: &Nearness) -> Option<Ordering> {
        Some(self.cmp(other))
    }
}
