//! Work states.

use super::{any_table, Xorshift};
use crate::state::{End, WorkState};

/// A table of any family at any place, with any mark, end and limit.
pub fn any_state(rng: &mut Xorshift, n: usize) -> WorkState {
    let table = any_table(rng, n);
    let limit = rng.pick(&[1, 2, 64]);
    WorkState {
        place: rng.below(n + 2) as u64,
        mark: rng.percent(50),
        end: rng.pick(&[End::Open, End::Open, End::Open, End::Stable, End::None]),
        ..WorkState::opened(&table, limit)
    }
}
