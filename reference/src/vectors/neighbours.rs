//! Passes that go on after a level has struck legs, so that stations have fewer
//! neighbours than at its start; runs in which such neighbours would tell; groups
//! that are joined by legs in one direction.

use crate::compare::neighbours::{neighbours_change, run_by_first_neighbours};
use crate::gen::{renamed, reversed, ring_of_rungs, two_way, two_wide_levels};
use crate::gen::{Family, Sheet, Xorshift};
use crate::run::run;
use crate::script::Script;
use crate::state::{last_place, WorkState};
use crate::table::LegTable;

pub fn add(script: &mut Script) {
    after_one_level(script);
    with_limits(script);
    most_stations(script);
    joined_one_way(script);
    smallest_runs(script);
    made_up_passes(script);
    made_up_runs(script);
}

/// The table of rows: the stations that may follow station 1, station 2 and so on.
fn table_of(rows: &[&[usize]]) -> LegTable {
    let legs = (1..)
        .zip(rows)
        .flat_map(|(i, row)| row.iter().map(move |&j| (i, j)));
    LegTable::from_legs(rows.len(), legs)
}

fn open_short(script: &mut Script, limit: u64, table: &LegTable) {
    script.open(limit, &Sheet::short(table).bytes());
}

/// Each seed on a fresh state.
fn seeds(script: &mut Script, limit: u64, table: &LegTable, seeds: &[u64]) {
    for &seed in seeds {
        open_short(script, limit, table);
        script.pass(seed);
    }
}

fn every_seed(script: &mut Script, limit: u64, table: &LegTable) {
    let all: Vec<u64> = (1..=table.n() as u64).collect();
    seeds(script, limit, table, &all);
}

/// A second pass finds what the first has left, and so does the run.
fn pass_again_and_run(script: &mut Script, limit: u64, table: &LegTable, seed: u64) {
    open_short(script, limit, table);
    script.pass(seed);
    script.pass(seed);
    script.run(u32::MAX);
}

/// The fewest stations: the road 2–3 goes, then station 4 alone gives none, or the
/// level of 4 and 5 strikes the road between them too.
fn after_one_level(script: &mut Script) {
    let roads = [(1, 2), (1, 3), (2, 3), (2, 4), (3, 4), (4, 5)];
    every_seed(script, 64, &two_way(5, &roads));
    let six = renamed(&ring_of_rungs(6), &[1, 2, 4, 6, 5, 3]);
    every_seed(script, 64, &six);
    pass_again_and_run(script, 64, &six, 1);
}

/// From seed 1 a level of three strikes legs and then one of two, from seed 7 the
/// other way round. Limit 2 skips the wider one, limit 1 both.
fn with_limits(script: &mut Script) {
    let table = table_of(&[&[2, 3, 4], &[1], &[2], &[2, 5], &[7], &[2, 5], &[6]]);
    for table in [&table, &reversed(&table)] {
        for limit in [1, 2, 3, 64] {
            seeds(script, limit, table, &[1, 7]);
        }
        pass_again_and_run(script, 2, table, 7);
    }
}

/// Thirty-one striking levels of two stations, the last inner one among them, and
/// two of thirty-one.
fn most_stations(script: &mut Script) {
    let long = ring_of_rungs(64);
    seeds(script, 64, &long, &[1, 33, 17]);
    seeds(script, 1, &long, &[1]);
    pass_again_and_run(script, 2, &long, 33);
    let short = two_wide_levels(31);
    seeds(script, 64, &short, &[1, 64]);
    seeds(script, 30, &short, &[1]);
    pass_again_and_run(script, 31, &short, 64);
}

/// Behind the level of 2 and 3 one leg joins 4 and 5: without it there would be a
/// component more than stations. A search from either of them has to see it.
fn joined_one_way(script: &mut Script) {
    let roads = [(1, 2), (1, 3), (2, 4), (3, 5)];
    for joining in [(4, 5), (5, 4)] {
        let mut table = two_way(5, &roads);
        table.add(joining.0, joining.1);
        every_seed(script, 64, &table);
        open_short(script, 64, &table);
        script.run(u32::MAX);
    }
    // Two legs that meet in the middle, or start there.
    let roads = [(1, 2), (1, 3), (2, 4), (3, 6)];
    for (middle, ends) in [(5, [4, 6]), (4, [5, 6])] {
        let table = LegTable::from_legs(6, ends.map(|end| (end, middle)));
        for mut table in [reversed(&table), table] {
            for (i, j) in two_way(6, &roads).legs() {
                table.add(i, j);
            }
            seeds(script, 64, &table, &[1, 2]);
        }
    }
}

/// Tables whose run comes out otherwise when the neighbours of its first level stand
/// for all later ones. Trying all tables finds none below five stations, and there
/// none with fewer legs; the others are the ones with the fewest legs of many random
/// ones.
const SMALLEST: [&[&[usize]]; 6] = [
    &[&[3, 4], &[3, 5], &[2, 4], &[1, 2], &[1]],
    &[&[2, 4], &[3, 5], &[4, 5], &[1, 2], &[1]],
    &[&[2, 4], &[3, 4], &[2, 5], &[1, 3], &[1]],
    &[&[4, 6], &[4, 5], &[1], &[3, 6], &[3], &[2, 5]],
    &[&[5], &[3], &[2, 6], &[1, 2], &[4, 6], &[1, 4]],
    &[&[2, 3], &[5], &[4], &[3, 7], &[6, 7], &[2, 3, 7], &[1]],
];

/// Whole, in two parts, and the same steps by hand.
fn smallest_runs(script: &mut Script) {
    for table in SMALLEST.map(table_of) {
        for budgets in [&[u32::MAX][..], &[3, u32::MAX]] {
            open_short(script, 64, &table);
            for &budget in budgets {
                script.run(budget);
            }
        }
        steps_by_hand(script, &table);
    }
}

fn steps_by_hand(script: &mut Script, table: &LegTable) {
    open_short(script, 64, table);
    script.sweep();
    script.chain();
    for seed in 1..=table.n() as u64 {
        script.pass(seed);
    }
}

/// The first table that a family gives with what is asked for.
fn drawn(
    rng: &mut Xorshift,
    family: Family,
    n: usize,
    asked: impl Fn(&LegTable) -> bool,
) -> LegTable {
    loop {
        let table = family.table(rng, n);
        if asked(&table) {
            return table;
        }
    }
}

/// Passes that come to a level with other neighbours than those at their start, and
/// the same from a place in the cycle.
fn made_up_passes(script: &mut Script) {
    let mut rng = Xorshift::new(901);
    for family in [Family::RingWithChords, Family::ClustersAtTwo] {
        for n in [7, 12, 20, 32] {
            let seed = rng.between(1, n);
            let table = drawn(&mut rng, family, n, |table| {
                neighbours_change(table, seed, 64)
            });
            seeds(script, 64, &table, &[seed as u64]);
            seeds(script, 2, &table, &[seed as u64]);
            script.work(&WorkState {
                place: last_place(seed as u64),
                ..WorkState::opened(&table, 64)
            });
            script.run(1);
        }
    }
}

fn made_up_runs(script: &mut Script) {
    let mut rng = Xorshift::new(902);
    for family in [Family::Medium, Family::ClustersAtTwo, Family::OneWayRoads] {
        for n in [8, 11, 14] {
            let table = drawn(&mut rng, family, n, |table| {
                let opened = WorkState::opened(table, 64);
                run_by_first_neighbours(opened, u32::MAX) != run(opened, u32::MAX)
            });
            open_short(script, 64, &table);
            script.run(u32::MAX);
        }
    }
}
