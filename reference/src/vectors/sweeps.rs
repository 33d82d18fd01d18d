//! Sweeps and passes by hand on states of every kind.

use super::{open_table, states_of};
use crate::gen::{any_table, random, ring, Family, Xorshift};
use crate::paper;
use crate::script::Script;
use crate::sheet::open;
use crate::table::LegTable;

pub fn add(script: &mut Script) {
    for table in small_tables() {
        open_table(script, 64, &table);
        script.sweep();
        script.sweep();
    }
    sweeps_by_hand(script);
    passes_by_hand(script);
    chains_of_sweeps(script);
    large_tables(script);
}

fn nine_legs() -> LegTable {
    open(&paper::NINE_LEGS, 64).state.table()
}

fn small_tables() -> Vec<LegTable> {
    vec![
        ring(4),
        nine_legs(),
        paper::butterfly(),
        LegTable::full(2),
        LegTable::full(4),
        LegTable::empty(3),
        // An empty row, an empty column.
        LegTable::from_legs(3, [(1, 2), (1, 3), (3, 2), (3, 1)]),
        LegTable::from_legs(3, [(1, 3), (2, 1), (2, 3), (3, 1)]),
        // Two stations with the same only next, and the same only previous:
        // both rows or columns come out empty, and only the next sweep says so.
        LegTable::from_legs(3, [(1, 3), (2, 3), (3, 1), (3, 2)]),
        LegTable::from_legs(4, [(1, 4), (2, 4), (3, 1), (3, 2), (4, 3), (4, 1), (3, 4)]),
    ]
}

/// Legs that go, none, and neither, under every end.
fn sweeps_by_hand(script: &mut Script) {
    for table in [nine_legs(), LegTable::empty(3), ring(4)] {
        for state in states_of(&table) {
            script.work(&state);
            script.sweep();
            script.sweep();
        }
    }
}

fn passes_by_hand(script: &mut Script) {
    for (table, seed) in [(nine_legs(), 4), (paper::butterfly(), 1), (ring(5), 1)] {
        for state in states_of(&table) {
            script.work(&state);
            script.pass(seed);
            script.pass(seed);
        }
    }
}

/// Several sweeps in a row: one may make room for the next.
fn chains_of_sweeps(script: &mut Script) {
    let mut rng = Xorshift::new(301);
    for n in 2..=12 {
        for _ in 0..8 {
            let density = rng.pick(&[15, 25, 35, 50]);
            open_table(script, 64, &random(&mut rng, n, density));
            for _ in 0..4 {
                script.sweep();
            }
        }
        open_table(script, 64, &any_table(&mut rng, n));
        script.sweep();
        script.sweep();
    }
}

fn large_tables(script: &mut Script) {
    let mut rng = Xorshift::new(302);
    for table in [ring(64), LegTable::full(64), LegTable::empty(64)] {
        open_table(script, 64, &table);
        script.sweep();
    }
    for n in [32, 33, 63, 64] {
        for family in [Family::RingWithChords, Family::Sparse, Family::OneWayRoads] {
            open_table(script, 64, &family.table(&mut rng, n));
            script.sweep();
            script.sweep();
        }
    }
}
