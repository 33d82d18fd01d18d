//! The tables that are searched.

use reference::gen::{Shape, Ways, Xorshift, SEARCHED, SHAPES};
use reference::WorkState;

use crate::LIMIT;

pub const SIZES: [usize; 3] = [16, 32, 64];

/// Tables of one family and size, and the node budget of their searches.
pub struct Kind {
    pub tables: usize,
    pub budget: u32,
}

/// Where searches find a round, all but few of them.
pub const USUAL: Kind = Kind {
    tables: 20,
    budget: 20_000,
};

/// Where most of them run out, which takes seconds for each.
pub const RUNNING_OUT: Kind = Kind {
    tables: 3,
    budget: 100_000,
};

/// The families of a size in which rounds are found, two-way ones first.
pub fn families(n: usize) -> Vec<&'static Shape> {
    let all = SHAPES.iter().chain(&SEARCHED);
    let mut families: Vec<&Shape> = all.filter(|shape| finds(shape, n)).collect();
    families.sort_by_key(|shape| shape.ways == Ways::One);
    families
}

fn finds(shape: &Shape, n: usize) -> bool {
    match shape.name {
        // On boards of 16 and 32 cells no knight comes round.
        "knight's moves" => n == 64,
        "grid" => n < 64,
        _ => true,
    }
}

/// The stations of the grids on which searches run out: 8×8 and 7×9 cells.
pub const GRIDS: [usize; 2] = [64, 63];

pub fn grid() -> &'static Shape {
    let mut shapes = SHAPES.iter();
    shapes.find(|shape| shape.name == "grid").expect("a grid")
}

/// Tables of a family without end.
pub fn drawn(shape: &Shape, n: usize) -> impl Iterator<Item = WorkState> + '_ {
    let mut rng = Xorshift::new(7);
    let state = move || WorkState::opened(&shape.table(&mut rng, n), LIMIT as u64);
    std::iter::repeat_with(state)
}
