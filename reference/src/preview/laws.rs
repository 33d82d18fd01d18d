//! What W-207 says of the answers of previews.

use super::{HandStep, Preview, NO_LEGS};
use crate::card::{self, Number};
use crate::hand::Handled;
use crate::stable::Fault;
use crate::state::{self, leg_count, End, Rows, WorkState};

/// A preview with what it was given.
#[derive(Clone, Copy, Debug, PartialEq, Eq)]
pub struct Previewed {
    pub before: WorkState,
    pub step: HandStep,
    pub preview: Preview,
}

impl Previewed {
    pub fn taken(&self) -> bool {
        self.preview.number == card::TAKEN
    }

    /// Was it taken on a state whose end was not none?
    pub fn works(&self) -> bool {
        self.taken() && self.before.end != End::None
    }

    pub fn shows_legs(&self) -> bool {
        self.preview.legs != NO_LEGS
    }

    pub fn shows_none(&self) -> bool {
        self.works() && self.preview.end == End::None
    }

    /// No leg would go, and the end would stay.
    pub fn shows_nothing(&self) -> bool {
        !self.shows_legs() && self.preview.end == self.before.end
    }
}

/// The number of every such step on this state, and of its previews.
pub fn number_due(state: &WorkState, step: HandStep) -> Number {
    match step {
        _ if state::bad(state) => card::BAD_WORK_STATE,
        HandStep::Pass(seed) if !(1..=state.n).contains(&seed) => card::STRAY_SEED,
        _ => card::TAKEN,
    }
}

/// Of a preview by itself.
pub fn fault(previewed: &Previewed) -> Fault {
    let Previewed {
        before,
        step,
        preview,
    } = previewed;
    if preview.number != number_due(before, *step) {
        Some("a preview has another number than its state and seed")
    } else if preview.state != *before {
        Some("a preview changes the state")
    } else if !previewed.taken() {
        let nothing = previewed.shows_nothing();
        (!nothing).then_some("a refused preview shows legs or another end")
    } else if before.end == End::None {
        let nothing = previewed.shows_nothing();
        (!nothing).then_some("a preview shows legs or another end, but the end is none")
    } else if !within(&preview.legs, &before.rows) {
        Some("a preview shows a leg that does not stand")
    } else if !previewed.shows_none() && preview.end != end_due(previewed) {
        Some("a preview shows an end that does not follow from its legs")
    } else {
        None
    }
}

/// The end that follows where the verdict is not none: legs that go open the state.
fn end_due(previewed: &Previewed) -> End {
    match previewed.shows_legs() {
        true => End::Open,
        false => previewed.before.end,
    }
}

/// Of a preview beside the step by hand on the same state.
pub fn fault_beside_step(previewed: &Previewed, step: &Handled) -> Fault {
    let Previewed {
        before, preview, ..
    } = previewed;
    if preview.number != step.number {
        Some("a preview has another number than its step")
    } else if preview.legs != without(&before.rows, &step.state.rows) {
        Some("a preview shows other legs than its step removes")
    } else if leg_count(&preview.legs) != step.removed {
        Some("a preview shows another number of legs than its step tells")
    } else if preview.end != step.state.end {
        Some("a preview shows another end than its step leaves")
    } else {
        None
    }
}

/// Of a second preview of the same step on the same state.
pub fn fault_beside_first(second: &Previewed, first: &Previewed) -> Fault {
    (second != first).then_some("a second preview differs from the first")
}

/// Of a preview beside rounds of its table: all of them or some.
pub fn fault_beside_rounds(previewed: &Previewed, rounds: &[Vec<usize>]) -> Fault {
    let legs = &previewed.preview.legs;
    let drives = |round: &Vec<usize>| {
        let mut driven = round.iter().zip(legs);
        driven.any(|(next, row)| row >> (next - 1) & 1 == 1)
    };
    if rounds.iter().any(drives) {
        Some("a preview shows a leg that a round drives")
    } else if previewed.shows_none() && !rounds.is_empty() {
        Some("a preview shows none, but there is a round")
    } else {
        None
    }
}

/// Of a preview on a stable state that calls from an opened sheet have led to.
pub fn fault_on_stable(previewed: &Previewed) -> Fault {
    let nothing = previewed.shows_nothing();
    (!nothing).then_some("a preview shows legs or another end on a stable state")
}

fn within(part: &Rows, whole: &Rows) -> bool {
    without(part, whole) == NO_LEGS
}

fn without(one: &Rows, other: &Rows) -> Rows {
    std::array::from_fn(|at| one[at] & !other[at])
}
