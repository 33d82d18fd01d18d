//! Must-drive tables: sound ones for a two-way table, and stray ones.

use super::Xorshift;
use crate::state::{Rows, WorkState};

pub const NO_ROADS: Rows = [0; 64];

/// The roads of a table that also stand in another one.
pub fn common(one: &Rows, other: &Rows) -> Rows {
    std::array::from_fn(|at| one[at] & other[at])
}

pub fn together(one: &Rows, other: &Rows) -> Rows {
    std::array::from_fn(|at| one[at] | other[at])
}

/// Some roads of a table, each with this chance in percent.
pub fn some_roads(rng: &mut Xorshift, rows: &Rows, chance: usize) -> Rows {
    let mut some = NO_ROADS;
    for (i, j) in pairs(64) {
        if stands(rows, i, j) && stands(rows, j, i) && rng.percent(chance) {
            set_road(&mut some, i, j);
        }
    }
    some
}

/// Two of the three roads of a station, if there is one with just three: its third road
/// has to go.
pub fn two_of_three(rng: &mut Xorshift, rows: &Rows) -> Rows {
    let mut two = NO_ROADS;
    let stations: Vec<_> = (0..64).filter(|&i| rows[i].count_ones() == 3).collect();
    if !stations.is_empty() {
        let at = rng.pick(&stations);
        let left_out = rng.below(3);
        let others = (0..64).filter(|&next| stands(rows, at, next)).enumerate();
        for (_, next) in others.filter(|(count, _)| *count != left_out) {
            set_road(&mut two, at, next);
        }
    }
    two
}

/// The roads that a round drives; entry i−1 follows station i.
pub fn roads_of_round(round: &[usize]) -> Rows {
    let mut rows = NO_ROADS;
    for (at, &next) in round.iter().enumerate() {
        set_road(&mut rows, at, next - 1);
    }
    rows
}

/// A sound must-drive table with one fault: a road that does not stand, a road given one
/// way only, a bit beyond the stations, one of a station itself. For 64 stations that are
/// all joined it may stay sound.
pub fn stray(rng: &mut Xorshift, state: &WorkState, must: &Rows) -> Rows {
    let n = state.n.clamp(2, 64) as usize;
    let mut stray = *must;
    match rng.below(6) {
        0 => missing_road(rng, n, &state.rows, &mut stray),
        1 | 2 => one_way_only(rng, n, &state.rows, &mut stray),
        3 if n < 64 => set_road(&mut stray, rng.between(n, 63), rng.below(n)),
        4 if n < 64 => stray[rng.below(n)] |= 1 << rng.between(n, 63),
        _ => {
            let own = rng.below(64);
            stray[own] |= 1 << own;
        }
    }
    stray
}

fn missing_road(rng: &mut Xorshift, n: usize, rows: &Rows, must: &mut Rows) {
    let missing: Vec<_> = pairs(n).filter(|&(i, j)| !stands(rows, i, j)).collect();
    if !missing.is_empty() {
        let (i, j) = rng.pick(&missing);
        set_road(must, i, j);
    }
}

/// Mostly by a road that stands.
fn one_way_only(rng: &mut Xorshift, n: usize, rows: &Rows, must: &mut Rows) {
    let standing: Vec<_> = pairs(n).filter(|&(i, j)| stands(rows, i, j)).collect();
    let (i, j) = if standing.is_empty() {
        (0, 1)
    } else {
        rng.pick(&standing)
    };
    let (from, to) = rng.pick(&[(i, j), (j, i)]);
    must[from] |= 1 << to;
    must[to] &= !(1 << from);
}

/// All pairs of stations, counted from 0.
fn pairs(n: usize) -> impl Iterator<Item = (usize, usize)> {
    (0..n).flat_map(move |i| (i + 1..n).map(move |j| (i, j)))
}

fn stands(rows: &Rows, i: usize, j: usize) -> bool {
    rows[i] >> j & 1 == 1
}

fn set_road(rows: &mut Rows, i: usize, j: usize) {
    rows[i] |= 1 << j;
    rows[j] |= 1 << i;
}
