//! Grids of cells, as square as their number lets them be: roads join neighbours. The
//! round of those with one-way roads is for n a power of two from 4 on.

use super::{add_round, round_along, two_way, Xorshift};
use crate::table::{Leg, LegTable};

/// The number of rows, and the cells of one.
pub fn sides(n: usize) -> (usize, usize) {
    let most = n.isqrt();
    let rows = (1..=most).rev().find(|rows| n % rows == 0).unwrap_or(1);
    (rows, n / rows)
}

fn roads(n: usize) -> impl Iterator<Item = Leg> {
    let (_, width) = sides(n);
    let across = (1..=n).filter(move |i| i % width != 0).map(|i| (i, i + 1));
    let along = (1..=n - width).map(move |i| (i, i + width));
    across.chain(along)
}

/// The round that goes to and fro over all columns but the first, which is the way
/// back.
fn round(n: usize) -> LegTable {
    let (rows, width) = sides(n);
    let at = |row: usize, column: usize| row * width + column + 1;
    let mut way = Vec::new();
    for row in 0..rows {
        let turn = |column| if row % 2 == 0 { column } else { width - column };
        way.extend((1..width).map(|column| at(row, turn(column))));
    }
    way.extend((0..rows).rev().map(|row| at(row, 0)));
    let mut table = LegTable::empty(n);
    add_round(&mut table, &round_along(&way));
    table
}

pub fn two_way_grid(n: usize) -> LegTable {
    two_way(n, &roads(n).collect::<Vec<_>>())
}

/// Each road in one direction: that of the round where it comes along, else any.
pub fn one_way_grid(rng: &mut Xorshift, n: usize) -> LegTable {
    let mut table = round(n);
    for (i, j) in roads(n) {
        if !table.has(i, j) && !table.has(j, i) {
            let (from, to) = rng.pick(&[(i, j), (j, i)]);
            table.add(from, to);
        }
    }
    table
}

/// About a third of the roads each in one direction, in the other and in both, and
/// the round.
pub fn mixed_grid(rng: &mut Xorshift, n: usize) -> LegTable {
    let mut table = round(n);
    for (i, j) in roads(n) {
        let driven = rng.below(3);
        if driven != 0 {
            table.add(i, j);
        }
        if driven != 1 {
            table.add(j, i);
        }
    }
    table
}
