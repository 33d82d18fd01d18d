//! The tables that are timed.

use reference::gen::{Shape, Sheet, Ways, Xorshift};
use reference::{fast, End, WorkState};

use crate::sides::assert_same_work;
use crate::{LIMIT, SIZES, TABLES};

/// A sheet and the state that opening it gives.
pub struct Input {
    pub sheet: Vec<u8>,
    pub state: WorkState,
}

impl Input {
    /// A run that ends with none may stop at its first step, so only tables on
    /// which it ends stable are taken.
    fn of(shape: &Shape, rng: &mut Xorshift, n: usize) -> Input {
        loop {
            let table = shape.table(rng, n);
            let state = WorkState::opened(&table, LIMIT as u64);
            if fast::run(state, u32::MAX).state.end == End::Stable {
                assert_same_work(&state);
                let sheet = Sheet::mixed(rng, &table).bytes();
                return Input { sheet, state };
            }
        }
    }
}

/// The tables of one shape, for each of the sizes.
pub struct Inputs {
    pub name: &'static str,
    pub ways: Ways,
    pub by_size: [Vec<Input>; SIZES.len()],
}

impl Inputs {
    pub fn of(shape: Shape) -> Inputs {
        let mut rng = Xorshift::new(7);
        let mut inputs = |n| {
            (0..TABLES)
                .map(|_| Input::of(&shape, &mut rng, n))
                .collect()
        };
        Inputs {
            name: shape.name,
            ways: shape.ways,
            by_size: SIZES.map(&mut inputs),
        }
    }
}
