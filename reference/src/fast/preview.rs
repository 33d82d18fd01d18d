//! Previews of steps by hand over words.

use super::{chain, pass_by, sweep, Idle};
use crate::preview::{HandStep, Preview};
use crate::state::WorkState;

/// A refused step hands its state back, so that no leg is left over and the end is the given
/// one.
pub fn preview_by<I: Idle>(state: WorkState, step: HandStep) -> Preview {
    let after = match step {
        HandStep::Sweep => sweep(state),
        HandStep::Chain => chain(state),
        HandStep::Pass(seed) => pass_by::<I>(state, seed),
    };
    let mut legs = state.rows;
    for (row, left) in legs.iter_mut().zip(after.state.rows) {
        *row &= !left;
    }
    Preview {
        number: after.number,
        legs,
        end: after.state.end,
        state,
    }
}
