//! Marks that need a way inside their component: valleys that can't be driven through,
//! or only in one direction.

use crate::compare::valleys::TellingTable;
use crate::gen::{long_dead_end, long_valley, no_way_left, renamed, reversed, ring, two_way};
use crate::gen::{road_with_gap, through_one_station, way_outside, way_struck_before};
use crate::gen::{Sheet, Xorshift};
use crate::paper::{self, NINE_LEGS};
use crate::script::Script;
use crate::state::{last_place, WorkState};
use crate::table::LegTable;

const LIMITS: [u64; 4] = [1, 2, 3, 64];

pub fn add(script: &mut Script) {
    for table in [paper::valley(), paper::dead_end()] {
        for limit in LIMITS {
            every_seed(script, limit, &table);
        }
        other_names(script, &table);
        runs(script, &table);
    }
    cases_as_before(script);
    through_stations(script);
    ways_outside(script);
    ways_struck_before(script);
    long_roads(script);
    most_stations(script);
    made_up(script);
}

fn open_short(script: &mut Script, limit: u64, table: &LegTable) {
    script.open(limit, &Sheet::short(table).bytes());
}

/// Each seed on a fresh state.
fn seeds(script: &mut Script, limit: u64, table: &LegTable, seeds: &[u64]) {
    for &seed in seeds {
        open_short(script, limit, table);
        script.pass(seed);
    }
}

fn every_seed(script: &mut Script, limit: u64, table: &LegTable) {
    let all: Vec<u64> = (1..=table.n() as u64).collect();
    seeds(script, limit, table, &all);
}

/// From every seed, and a whole run.
fn whole(script: &mut Script, table: &LegTable) {
    every_seed(script, 64, table);
    open_short(script, 64, table);
    script.run(u32::MAX);
}

/// Turned round, and under names by which the way in is not the lowest station.
fn other_names(script: &mut Script, table: &LegTable) {
    every_seed(script, 64, &reversed(table));
    for names in [[2, 3, 4, 5, 6, 1], [6, 5, 4, 3, 2, 1], [5, 3, 6, 1, 2, 4]] {
        seeds(script, 64, &renamed(table, &names), &[names[3] as u64]);
        seeds(
            script,
            64,
            &renamed(&reversed(table), &names),
            &[names[3] as u64],
        );
    }
}

/// Whole, in parts, with low limits, and from the place of seed 4.
fn runs(script: &mut Script, table: &LegTable) {
    let parts: [(u64, &[u32]); 4] = [
        (64, &[u32::MAX]),
        (64, &[1, 1, 3, 1, u32::MAX]),
        (3, &[6, 7]),
        (2, &[u32::MAX]),
    ];
    for (limit, budgets) in parts {
        open_short(script, limit, table);
        for &budget in budgets {
            script.run(budget);
        }
    }
    script.work(&WorkState {
        place: last_place(4),
        mark: true,
        ..WorkState::opened(table, 64)
    });
    script.run(1);
}

/// What the first paper names has the same results with and without ways.
fn cases_as_before(script: &mut Script) {
    for limit in [1, 64] {
        for seed in 1..=6 {
            script.open(limit, &NINE_LEGS);
            script.pass(seed);
        }
    }
    for sheet in [&NINE_LEGS[..], &[3, 0, 0, 0], &[2, 0, 0], &[2, 4, 1, 0]] {
        script.open(64, sheet);
        script.run(300_000);
    }
    for table in [ring(4), ring(5), paper::butterfly(), paper::greedy_trap()] {
        whole(script, &table);
    }
}

/// A way in that is the way out: a station that is all of its component, and stations
/// of a larger one.
fn through_stations(script: &mut Script) {
    whole(script, &two_way(4, &[(1, 2), (2, 3), (3, 4), (4, 1)]));
    for table in [through_one_station(), reversed(&through_one_station())] {
        whole(script, &table);
    }
}

/// Only in-choices change, and only out-choices.
fn ways_outside(script: &mut Script) {
    for table in [way_outside(), reversed(&way_outside())] {
        for limit in [2, 64] {
            every_seed(script, limit, &table);
        }
        open_short(script, 64, &table);
        script.run(u32::MAX);
    }
}

/// A level strikes a leg on a way of the next one. A lower limit skips one of them.
fn ways_struck_before(script: &mut Script) {
    for table in [way_struck_before(), reversed(&way_struck_before())] {
        whole(script, &table);
        seeds(script, 2, &table, &[6]);
    }
    for table in [no_way_left(), reversed(&no_way_left())] {
        whole(script, &table);
    }
}

fn long_roads(script: &mut Script) {
    for table in [long_valley(20), long_dead_end(20)] {
        for table in [reversed(&table), table] {
            seeds(script, 64, &table, &[4, 1, 12, 20]);
            open_short(script, 64, &table);
            script.run(u32::MAX);
        }
    }
    // Gaps behind the way in, amid the road and before the way out, and none.
    for gap in [5, 8, 11, 12] {
        seeds(script, 64, &road_with_gap(12, gap), &[4, 8]);
    }
}

/// Roads over all the bits of a word, up and down and back and forth.
fn most_stations(script: &mut Script) {
    let turned: Vec<usize> = (1..=64).map(|k| 65 - k).collect();
    let mixed: Vec<usize> = (1..=64).map(|k| k * 27 % 64 + 1).collect();
    for table in [long_valley(64), long_dead_end(64)] {
        for names in [&turned, &mixed] {
            seeds(script, 64, &renamed(&table, names), &[names[3] as u64]);
        }
        seeds(script, 64, &table, &[4, 64]);
        open_short(script, 64, &table);
        script.run(u32::MAX);
    }
    for gap in [5, 33, 64] {
        seeds(script, 64, &road_with_gap(64, gap), &[4]);
    }
}

fn made_up(script: &mut Script) {
    let mut rng = Xorshift::new(1101);
    for n in [6, 7, 8, 9, 10, 12, 17, 26, 40, 64] {
        let drawn = TellingTable::drawn(&mut rng, n);
        seeds(script, 64, &drawn.table, &[drawn.seed]);
        open_short(script, 64, &drawn.table);
        script.run(u32::MAX);
    }
}
