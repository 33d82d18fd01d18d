//! Passes: the faults of the yard, every seed, several limits.

use super::{open_table, WIDE_NUMBERS};
use crate::gen::{choices_at_odds, renamed, reversed, ring, rung_and_dead_end, Family, Xorshift};
use crate::paper;
use crate::script::Script;
use crate::table::LegTable;

const LIMITS: [u64; 4] = [1, 2, 3, 64];

pub fn add(script: &mut Script) {
    nine_legs(script);
    yard_faults(script);
    both_directions(script);
    struck_before_none(script);
    stray_seeds(script);
    small_tables(script);
    medium_tables(script);
    large_tables(script);
}

fn nine_legs(script: &mut Script) {
    for limit in LIMITS {
        for seed in 1..=6 {
            script.open(limit, &paper::NINE_LEGS);
            script.pass(seed);
        }
    }
}

fn yard_faults(script: &mut Script) {
    for table in [ring(4), ring(5), paper::butterfly(), paper::greedy_trap()] {
        every_seed(script, &table);
    }
    // Under some of its names the trap also catches one who hands out from the
    // other end or starts with the other component.
    for names in orders_of_four() {
        open_table(script, 64, &renamed(&paper::greedy_trap(), &names));
        script.pass(names[0] as u64);
        let backward = renamed(&reversed(&paper::greedy_trap()), &names);
        open_table(script, 64, &backward);
        script.pass(names[0] as u64);
    }
}

fn orders_of_four() -> Vec<Vec<usize>> {
    let mut orders = Vec::new();
    for code in 0..256 {
        let order: Vec<usize> = (0..4).map(|k| (code >> (2 * k)) % 4 + 1).collect();
        if (1..=4).all(|station| order.contains(&station)) {
            orders.push(order);
        }
    }
    orders
}

/// Each seed on a fresh state.
fn every_seed(script: &mut Script, table: &LegTable) {
    for limit in LIMITS {
        for seed in 1..=table.n() as u64 {
            open_table(script, limit, table);
            script.pass(seed);
        }
    }
}

/// Each seed on what the ones before have left.
fn seeds_in_turn(script: &mut Script, limit: u64, table: &LegTable) {
    open_table(script, limit, table);
    for seed in 1..=table.n() as u64 {
        script.pass(seed);
    }
}

/// Out- and in-choices are both made before any leg goes.
fn both_directions(script: &mut Script) {
    every_seed(script, &choices_at_odds());
    every_seed(script, &reversed(&choices_at_odds()));
}

/// Legs struck at an earlier level stay struck when a later one gives none.
fn struck_before_none(script: &mut Script) {
    let mut rng = Xorshift::new(404);
    every_seed(script, &rung_and_dead_end());
    for _ in 0..6 {
        every_seed(script, &Family::RingWithRungs.table(&mut rng, 9));
    }
}

/// A stray seed is refused on open, stable and ended states alike.
fn stray_seeds(script: &mut Script) {
    let openings: [(&[u8], u32); 3] = [
        (&[3, 0, 0, 0], 0),
        (&[3, 0, 0, 0], u32::MAX),
        (&[2, 4, 1, 0], u32::MAX),
    ];
    for (sheet, budget) in openings {
        script.open(64, sheet);
        script.run(budget);
        for seed in [0, 1, 2, 3, 4, 64, 65].into_iter().chain(WIDE_NUMBERS) {
            script.pass(seed);
        }
    }
    open_table(script, 64, &ring(64));
    for seed in [0, 64, 65] {
        script.pass(seed);
    }
}

fn small_tables(script: &mut Script) {
    let mut rng = Xorshift::new(401);
    for family in Family::FOR_PASSES {
        for n in [rng.between(2, 4), rng.between(5, 6), 7] {
            every_seed(script, &family.table(&mut rng, n));
        }
    }
    for n in [5, 6, 7, 8] {
        for _ in 0..8 {
            every_seed(script, &Family::Hubs.table(&mut rng, n));
        }
    }
}

fn medium_tables(script: &mut Script) {
    let mut rng = Xorshift::new(402);
    for family in Family::FOR_PASSES {
        let n = rng.between(11, 19);
        let table = family.table(&mut rng, n);
        for limit in LIMITS {
            seeds_in_turn(script, limit, &table);
        }
    }
}

fn large_tables(script: &mut Script) {
    let mut rng = Xorshift::new(403);
    for family in [Family::Hubs, Family::Grid, Family::ClustersAtTwo] {
        seeds_in_turn(script, 64, &family.table(&mut rng, 64));
    }
    for family in Family::FOR_PASSES {
        for (n, limit) in [(33, 3), (63, 8), (64, 2), (64, 64)] {
            open_table(script, limit, &family.table(&mut rng, n));
            for seed in [1, 32, n as u64] {
                script.pass(seed);
            }
        }
    }
}
