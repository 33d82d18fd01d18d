//! List checks: every list over small tables, and lists of wrong shape.

use super::open_table;
use crate::gen::{all_lists, ring};
use crate::paper;
use crate::script::Script;
use crate::table::LegTable;

pub fn add(script: &mut Script) {
    named_lists(script);
    open_table(script, 64, &paper::catalogue());
    every_list(script, 4);
    for n in 2..=5 {
        open_table(script, 64, &LegTable::full(n));
        every_list(script, n);
    }
    lists_of_64(script);
    ended_states(script);
}

fn named_lists(script: &mut Script) {
    open_table(script, 64, &LegTable::full(4));
    let lists: [&[u8]; 14] = [
        &[2, 3, 4, 1],
        // Two small circuits.
        &[2, 1, 4, 3],
        // Wrong lengths.
        &[],
        &[2],
        &[2, 3, 4],
        &[2, 3, 4, 1, 1],
        // Numbers that are no stations, met early, late or never by the walk.
        &[0, 3, 4, 1],
        &[2, 3, 4, 0],
        &[5, 3, 4, 1],
        &[2, 3, 4, 5],
        &[2, 1, 4, 255],
        &[2, 1, 0, 3],
        // A station that follows itself, one that follows twice.
        &[1, 3, 4, 2],
        &[2, 3, 2, 1],
    ];
    for list in lists {
        script.list(list);
    }
    script.list(&[2; 300]);
    // A leg that is missing.
    open_table(script, 64, &ring(4));
    for list in [[2, 3, 4, 1], [3, 1, 4, 2], [4, 1, 2, 3]] {
        script.list(&list);
    }
}

/// All n^n lists of n stations.
fn every_list(script: &mut Script, n: usize) {
    for list in all_lists(n, 1..=n as u8) {
        script.list(&list);
    }
}

fn lists_of_64(script: &mut Script) {
    let forward: Vec<u8> = (1..=64).map(|i| i % 64 + 1).collect();
    let backward: Vec<u8> = (1..=64).map(|i| (i + 62) % 64 + 1).collect();
    let mut halves = forward.clone();
    halves[31] = 1;
    halves[63] = 33;
    for table in [LegTable::full(64), ring(64)] {
        open_table(script, 64, &table);
        for list in [&forward, &backward, &halves] {
            script.list(list);
        }
        script.list(&forward[..63]);
    }
}

/// The end of a state doesn't matter.
fn ended_states(script: &mut Script) {
    for sheet in [&[3, 0, 0, 0][..], &[2, 4, 1, 0][..]] {
        script.open(64, sheet);
        script.run(u32::MAX);
        script.list(&[2, 3, 1]);
        script.list(&[2, 1]);
    }
}
