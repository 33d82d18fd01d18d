//! What a cut step may do, by every split of a small table.

use reference::rounds::rounds;
use reference::state::Rows;
use reference::WorkState;

/// Tables of more stations have too many splits to try.
pub const MOST_STATIONS: u64 = 10;

/// The roads between a group and the other stations, as a table.
fn between(rows: &Rows, group: u64) -> Rows {
    std::array::from_fn(|at| {
        let inside = group >> at & 1 == 1;
        rows[at] & if inside { !group } else { group }
    })
}

pub fn count(rows: &Rows) -> u32 {
    rows.iter().map(|row| row.count_ones()).sum()
}

pub fn common(one: &Rows, other: &Rows) -> Rows {
    std::array::from_fn(|at| one[at] & other[at])
}

pub fn without(one: &Rows, other: &Rows) -> Rows {
    std::array::from_fn(|at| one[at] & !other[at])
}

fn together(one: &Rows, other: &Rows) -> Rows {
    std::array::from_fn(|at| one[at] | other[at])
}

/// The legs and the must-drive roads after a step, or nothing where it gives none.
pub fn expected(state: &WorkState, given: &Rows) -> Option<(Rows, Rows)> {
    let [mut forced, mut gone] = [[0; 64]; 2];
    for group in 1..(1 << state.n) - 1 {
        let cut = between(&state.rows, group);
        let free = without(&cut, given);
        // Each road has two legs.
        match (count(&cut) / 2, count(&free) / 2) {
            (0 | 1, _) | (3, 0) => return None,
            (2, _) => forced = together(&forced, &cut),
            (3, 1) => gone = together(&gone, &free),
            _ => {}
        }
    }
    let apart = count(&common(&forced, &gone)) == 0;
    apart.then(|| (without(&state.rows, &gone), together(given, &forced)))
}

/// The roads that a round drives, both ways.
fn roads_of(round: &[usize]) -> Rows {
    let mut roads = [0; 64];
    for (at, &next) in round.iter().enumerate() {
        roads[at] |= 1 << (next - 1);
        roads[next - 1] |= 1 << at;
    }
    roads
}

/// The rounds of a table, each as its legs and its roads.
pub fn all_rounds(state: &WorkState) -> Vec<(Rows, Rows)> {
    let legs = |round: &[usize]| {
        let mut legs = [0; 64];
        for (row, next) in legs.iter_mut().zip(round) {
            *row = 1 << (next - 1);
        }
        legs
    };
    let rounds = rounds(&state.table());
    rounds
        .iter()
        .map(|round| (legs(round), roads_of(round)))
        .collect()
}

pub fn within(one: &Rows, other: &Rows) -> bool {
    count(&without(one, other)) == 0
}
