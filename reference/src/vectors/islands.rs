//! Passes on tables with stations out of reach: none before any level is looked
//! at, by hand and in the cycle, and no leg goes.

use super::states_of;
use crate::gen::{renamed, reversed, two_way, Record, Sheet};
use crate::script::Script;
use crate::state::{last_place, WorkState};
use crate::table::{Leg, LegTable};

pub fn add(script: &mut Script) {
    levels_over_the_limit(script);
    no_inner_level(script);
    lone_stations(script);
    three_islands(script);
    by_hand(script);
    bad_states(script);
    in_the_cycle(script);
    most_stations(script);
    joined(script);
}

/// Tables side by side, without any leg between them.
fn beside(tables: &[LegTable]) -> LegTable {
    let n = tables.iter().map(LegTable::n).sum();
    let mut before = 0;
    let mut legs = Vec::new();
    for table in tables {
        legs.extend(moved_up(table, before));
        before += table.n();
    }
    LegTable::from_legs(n, legs)
}

fn moved_up(table: &LegTable, by: usize) -> impl Iterator<Item = Leg> {
    table.legs().into_iter().map(move |(i, j)| (i + by, j + by))
}

fn full_islands(sizes: &[usize]) -> LegTable {
    let islands: Vec<LegTable> = sizes.iter().map(|&n| LegTable::full(n)).collect();
    beside(&islands)
}

/// A two-way ring of four: from each seed the only inner level has two stations.
fn square() -> LegTable {
    two_way(4, &[(1, 2), (2, 3), (3, 4), (4, 1)])
}

fn with_legs(mut table: LegTable, legs: &[Leg]) -> LegTable {
    for &(i, j) in legs {
        table.add(i, j);
    }
    table
}

fn open_short(script: &mut Script, limit: u64, table: &LegTable) {
    script.open(limit, &Sheet::short(table).bytes());
}

/// Each seed on a fresh state.
fn seeds(script: &mut Script, limit: u64, table: &LegTable, seeds: &[u64]) {
    for &seed in seeds {
        open_short(script, limit, table);
        script.pass(seed);
    }
}

fn every_seed(script: &mut Script, limit: u64, table: &LegTable) {
    let all: Vec<u64> = (1..=table.n() as u64).collect();
    seeds(script, limit, table, &all);
}

/// With limit 1 all inner levels are skipped, with 2 they are not.
fn levels_over_the_limit(script: &mut Script) {
    let table = beside(&[square(), square()]);
    every_seed(script, 1, &table);
    let mixed = renamed(&table, &[1, 3, 5, 7, 2, 4, 6, 8]);
    seeds(script, 1, &mixed, &[2, 7]);
    seeds(script, 2, &mixed, &[1, 8]);
}

fn no_inner_level(script: &mut Script) {
    every_seed(script, 64, &full_islands(&[2, 2]));
    every_seed(script, 1, &full_islands(&[3, 3]));
    // Seeds on the smaller island and on the larger one.
    seeds(script, 64, &full_islands(&[2, 5]), &[1, 2, 3, 7]);
    // On the full island there is no level to look at, on the other there is.
    let one_full = beside(&[square(), LegTable::full(4)]);
    seeds(script, 2, &one_full, &[1, 8]);
}

/// All legs of n stations but those from and to one of them.
fn all_but(lone: usize, n: usize) -> Sheet {
    let mut sheet = Sheet::plain(n);
    sheet.records[lone - 1] = Record {
        next: Some(0),
        previous: Some(0),
        fixed: None,
    };
    sheet
}

/// Seeds on a station without legs and off it.
fn lone_stations(script: &mut Script) {
    every_seed(script, 1, &LegTable::empty(2));
    every_seed(script, 64, &LegTable::empty(3));
    for lone in [1, 3, 4] {
        for seed in 1..=4 {
            script.open(64, &all_but(lone, 4).bytes());
            script.pass(seed);
        }
    }
    let beside_square = beside(&[square(), LegTable::empty(1)]);
    seeds(script, 1, &beside_square, &[1, 4, 5]);
}

fn three_islands(script: &mut Script) {
    every_seed(script, 1, &full_islands(&[2, 3, 1]));
    let squares = beside(&[square(), LegTable::full(2), square()]);
    seeds(script, 1, &squares, &[1, 6, 9]);
}

/// Under every end. A stray seed is refused before and after; under end none
/// nothing changes.
fn by_hand(script: &mut Script) {
    for state in states_of(&full_islands(&[3, 2])) {
        script.work(&state);
        for seed in [0, 6, 4, 1, 6] {
            script.pass(seed);
        }
    }
}

/// A bad state is refused for what makes it bad, whatever the seed.
fn bad_states(script: &mut Script) {
    let good = WorkState::opened(&full_islands(&[3, 2]), 1);
    let place = last_place(good.n) + 1;
    let mut beyond = good;
    // Legs by which station 6, which there is not, would join the islands.
    beyond.rows[5] = 0b1_0001;
    for state in [WorkState { place, ..good }, beyond] {
        script.work(&state);
        for seed in [1, 5, 0, 6] {
            script.pass(seed);
        }
        script.run(u32::MAX);
    }
}

/// On full islands of three and more stations neither sweep nor chain step has
/// anything to say.
fn in_the_cycle(script: &mut Script) {
    let table = full_islands(&[3, 4]);
    for budgets in [&[0, 1, 1, 0, 1, 1][..], &[2, 5], &[3], &[u32::MAX]] {
        open_short(script, 1, &table);
        for &budget in budgets {
            script.run(budget);
        }
    }
    parted_by_the_sweep(script);
    // Place and mark stay as they are amid a cycle too.
    let opened = WorkState::opened(&table, 64);
    for (place, mark) in [(5, true), (last_place(opened.n), false)] {
        script.work(&WorkState {
            place,
            mark,
            ..opened
        });
        script.run(9);
    }
}

/// Station 5 leads only to 4, so that a sweep strikes the leg 3→4 that joins the
/// islands. Passes before it reach all stations, and those after it do not: in the
/// run the mark stays set.
fn parted_by_the_sweep(script: &mut Script) {
    let mut table = with_legs(full_islands(&[3, 5]), &[(3, 4)]);
    table.strike(&[(5, 6), (5, 7), (5, 8)]);
    for budgets in [&[1, 1, 1][..], &[u32::MAX]] {
        open_short(script, 1, &table);
        script.pass(4);
        for &budget in budgets {
            script.run(budget);
        }
    }
    open_short(script, 1, &table);
    script.sweep();
    script.pass(4);
}

fn most_stations(script: &mut Script) {
    for (lone, seeds) in [(64, [1, 63, 64]), (1, [1, 2, 64]), (33, [32, 33, 34])] {
        let sheet = all_but(lone, 64).bytes();
        for seed in seeds {
            script.open(64, &sheet);
            script.pass(seed);
        }
    }
    // The last step of a cycle, from the lone station.
    let lone_last = beside(&[LegTable::full(63), LegTable::empty(1)]);
    script.work(&WorkState {
        place: last_place(64),
        ..WorkState::opened(&lone_last, 64)
    });
    script.run(u32::MAX);
    let halves = full_islands(&[32, 32]);
    let by_turns: Vec<usize> = (1..=64).step_by(2).chain((2..=64).step_by(2)).collect();
    for (table, seed) in [(&halves, 64), (&renamed(&halves, &by_turns), 1)] {
        script.work(&WorkState::opened(table, 1));
        script.pass(seed);
    }
    script.work(&WorkState::opened(&halves, 64));
    script.run(u32::MAX);
}

/// A leg in one direction is enough: these tables have no station out of reach,
/// and a pass says only what its levels do.
fn joined(script: &mut Script) {
    // By one leg: its ends have no level of one station, the others do.
    every_seed(script, 1, &with_legs(full_islands(&[3, 3]), &[(3, 4)]));
    for (one_way, limit) in [
        // By two legs, so that no level has one station alone.
        (with_legs(full_islands(&[3, 3]), &[(1, 4), (2, 5)]), 1),
        // To one station, from all others.
        (LegTable::from_legs(5, (2..=5).map(|i| (i, 1))), 3),
        (LegTable::from_legs(2, [(1, 2)]), 1),
    ] {
        every_seed(script, limit, &one_way);
        every_seed(script, limit, &reversed(&one_way));
    }
}
