//! The kinds of tables that are timed and measured, for n a power of two from 8 on.
//! All have their stations numbered at random.

use super::grids::{mixed_grid, one_way_grid, sides, two_way_grid};
use super::{add_round, plant_round, ring, round_along, shuffled, two_way, Xorshift};
use crate::table::{Leg, LegTable};

/// A kind of tables.
pub struct Shape {
    pub name: &'static str,
    pub ways: Ways,
    make: fn(&mut Xorshift, usize) -> LegTable,
}

/// Whether each leg of a table stands the other way too.
#[derive(Clone, Copy, Debug, PartialEq, Eq)]
pub enum Ways {
    Both,
    One,
}

/// First the two-way kinds, then the one-way ones.
pub const SHAPES: [Shape; 14] = [
    both("full", |_, n| LegTable::full(n)),
    both("roads", roads),
    both("clusters", clusters),
    both("ring with chords", |rng, n| {
        let table = ring_with_chords(rng, n);
        two_way(n, &table.legs())
    }),
    both("grid", |_, n| two_way_grid(n)),
    one("random, 2 legs a station", |rng, n| {
        random_with_round(rng, n, 1, n - 1)
    }),
    one("random, 3 legs a station", |rng, n| {
        random_with_round(rng, n, 2, n - 1)
    }),
    one("random, 4 legs a station", |rng, n| {
        random_with_round(rng, n, 3, n - 1)
    }),
    one("random, 35 %", |rng, n| random_with_round(rng, n, 35, 100)),
    one("plain ring", |_, n| ring(n)),
    one("ring with one-way chords", ring_with_chords),
    one("one-way grid", one_way_grid),
    one("mixed grid", mixed_grid),
    one("band", |_, n| band(n)),
];

/// Two-way kinds on which the search for a round alone is timed. For knights n is 64.
pub const SEARCHED: [Shape; 2] = [
    both("cubic", cubic),
    both("knight's moves", |_, n| knights_moves(n)),
];

type Make = fn(&mut Xorshift, usize) -> LegTable;

const fn both(name: &'static str, make: Make) -> Shape {
    let ways = Ways::Both;
    Shape { name, ways, make }
}

const fn one(name: &'static str, make: Make) -> Shape {
    let ways = Ways::One;
    Shape { name, ways, make }
}

impl Shape {
    pub fn table(&self, rng: &mut Xorshift, n: usize) -> LegTable {
        let table = (self.make)(rng, n);
        shuffled(rng, &table)
    }
}

/// A round, and each leg with the chance `part` of `whole`.
fn random_with_round(rng: &mut Xorshift, n: usize, part: usize, whole: usize) -> LegTable {
    let mut table = LegTable::full(n);
    let legs = table.legs().into_iter();
    let gone: Vec<Leg> = legs.filter(|_| rng.below(whole) >= part).collect();
    table.strike(&gone);
    plant_round(rng, &mut table);
    table
}

/// Points at random in a square. A road joins two of them if no other one lies in
/// the circle that has the road as its diameter (a Gabriel graph).
fn roads(rng: &mut Xorshift, n: usize) -> LegTable {
    let mut number = || rng.below(1 << 20) as i64;
    let points: Vec<(i64, i64)> = (0..n).map(|_| (number(), number())).collect();
    let outside = |k: usize, (i, j): Leg| {
        let [(x, y), a, b] = [points[k - 1], points[i - 1], points[j - 1]];
        (a.0 - x) * (b.0 - x) + (a.1 - y) * (b.1 - y) >= 0
    };
    let joined = |&leg: &Leg| (1..=n).all(|k| outside(k, leg));
    let legs = LegTable::full(n).legs().into_iter();
    LegTable::from_legs(n, legs.filter(joined))
}

/// Stations in a line, cut into groups of four to six, of which neighbours share two
/// stations. Roads inside the groups, each with the same chance, and the round that
/// goes up by the odd places and down by the even ones.
fn clusters(rng: &mut Xorshift, n: usize) -> LegTable {
    let density = rng.pick(&[60, 85, 100]);
    let mut roads: Vec<Leg> = up_and_down(n).legs();
    let mut start = 1;
    while start + 1 < n {
        let end = (start + rng.between(3, 5)).min(n);
        let pairs = (start..=end).flat_map(|i| (start..i).map(move |j| (i, j)));
        roads.extend(pairs.filter(|_| rng.percent(density)));
        start = end - 1;
    }
    two_way(n, &roads)
}

/// A ring with n/2, n or 2n chords, each between stations two to six places apart
/// and in one direction.
fn ring_with_chords(rng: &mut Xorshift, n: usize) -> LegTable {
    let mut table = ring(n);
    for _ in 0..rng.pick(&[n / 2, n, 2 * n]) {
        let i = rng.between(1, n);
        let j = (i + rng.between(2, 6) - 1) % n + 1;
        let (from, to) = rng.pick(&[(i, j), (j, i)]);
        table.add(from, to);
    }
    table
}

/// A ring in which roads across it join the stations in pairs.
fn cubic(rng: &mut Xorshift, n: usize) -> LegTable {
    let order = rng.order(n);
    let pairs = order.chunks(2).map(|pair| (pair[0], pair[1]));
    let roads: Vec<Leg> = ring(n).legs().into_iter().chain(pairs).collect();
    two_way(n, &roads)
}

/// The cells of a board, joined by the moves of a knight.
fn knights_moves(n: usize) -> LegTable {
    let (_, width) = sides(n);
    let cell = |i: usize| ((i - 1) / width, (i - 1) % width);
    let joined = |&(i, j): &Leg| {
        let (from, to) = (cell(i), cell(j));
        from.0.abs_diff(to.0) * from.1.abs_diff(to.1) == 2
    };
    LegTable::from_legs(n, LegTable::full(n).legs().into_iter().filter(joined))
}

/// The round of stations in a line that goes up by the odd places and down by the
/// even ones.
fn up_and_down(n: usize) -> LegTable {
    let odd = |i: &usize| i % 2 == 1;
    let up = (1..=n).filter(odd);
    let down = (1..=n).rev().filter(|i| !odd(i));
    let mut table = LegTable::empty(n);
    add_round(
        &mut table,
        &round_along(&up.chain(down).collect::<Vec<_>>()),
    );
    table
}

/// Stations in a line: legs one or two places on and one place back, and the
/// round that goes up by the odd places and down by the even ones. A run
/// strikes few legs in each of many cycles.
pub fn band(n: usize) -> LegTable {
    let mut table = up_and_down(n);
    for i in 1..n {
        table.add(i, i + 1);
        table.add(i + 1, i);
    }
    for i in 1..n - 1 {
        table.add(i, i + 2);
    }
    table
}
