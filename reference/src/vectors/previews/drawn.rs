//! States and steps, drawn so that their previews differ.

use crate::calls::{Calls, Fast};
use crate::gen::{any_state, any_table, Xorshift};
use crate::preview::laws::Previewed;
use crate::preview::HandStep;
use crate::program::LIMIT;
use crate::state::WorkState;
use crate::table::LegTable;

fn previewed(before: WorkState, step: HandStep) -> Previewed {
    Previewed {
        before,
        step,
        preview: Fast.preview(before, step),
    }
}

/// A pass that shows legs and none, on a table of any family.
pub fn none_with_legs(rng: &mut Xorshift, n: usize) -> (LegTable, HandStep) {
    loop {
        let table = any_table(rng, n);
        let opened = WorkState::opened(&table, LIMIT);
        let shown = |step: &HandStep| {
            let previewed = previewed(opened, *step);
            previewed.shows_none() && previewed.shows_legs()
        };
        if let Some(step) = HandStep::all(opened.n).find(shown) {
            return (table, step);
        }
    }
}

pub type Fits = fn(&Previewed) -> bool;

/// Those that show legs come first, one for each kind of step.
pub const FITS: [Fits; 7] = [
    |previewed| previewed.step == HandStep::Sweep && opens(previewed),
    |previewed| previewed.step == HandStep::Chain && opens(previewed),
    |previewed| is_pass(previewed) && opens(previewed),
    |previewed| previewed.step == HandStep::Sweep && previewed.shows_none(),
    |previewed| previewed.step == HandStep::Chain && previewed.shows_none(),
    |previewed| is_pass(previewed) && previewed.shows_none(),
    |previewed| previewed.works() && previewed.shows_nothing(),
];

fn is_pass(previewed: &Previewed) -> bool {
    matches!(previewed.step, HandStep::Pass(_))
}

fn opens(previewed: &Previewed) -> bool {
    previewed.shows_legs() && !previewed.shows_none()
}

/// A state of any kind, and a step on it.
pub fn drawn(rng: &mut Xorshift, n: usize, fits: Fits) -> (WorkState, HandStep) {
    loop {
        let state = any_state(rng, n);
        let step = any_step(rng, n);
        if fits(&previewed(state, step)) {
            return (state, step);
        }
    }
}

fn any_step(rng: &mut Xorshift, n: usize) -> HandStep {
    match rng.below(3) {
        0 => HandStep::Sweep,
        1 => HandStep::Chain,
        _ => HandStep::Pass(rng.between(1, n) as u64),
    }
}

/// Does the highest limit show other legs of the opened table than a low one?
pub fn limit_tells(drawn: &Previewed) -> bool {
    let legs = |limit: u64| {
        let opened = WorkState::opened(&drawn.before.table(), limit);
        previewed(opened, drawn.step).preview.legs
    };
    legs(2) != legs(LIMIT)
}

/// A step that shows something on this state, or any.
pub fn step_that(rng: &mut Xorshift, state: &WorkState) -> HandStep {
    let tells = |step: &HandStep| !previewed(*state, *step).shows_nothing();
    let told: Vec<HandStep> = HandStep::all(state.n).filter(tells).collect();
    match told[..] {
        [] => any_step(rng, state.n as usize),
        _ => rng.pick(&told),
    }
}
