//! Runs: whole, cut at every budget, step by step, on ended states.

use super::openings::quoted;
use super::{open_table, WIDE_NUMBERS};
use crate::gen::{any_table, ring, rung_and_dead_end, Family, Sheet, Xorshift};
use crate::paper;
use crate::program::{BUDGET, LIMIT};
use crate::run::run;
use crate::script::Script;
use crate::sheet::open;
use crate::state::{End, WorkState};
use crate::table::LegTable;

pub fn add(script: &mut Script) {
    program_vectors(script);
    cut_runs(script);
    single_steps(script);
    states_amid_a_cycle(script);
    struck_before_none(script);
    whole_runs(script);
    mixed_calls(script);
}

/// The calls of the program on every quoted sheet.
fn program_vectors(script: &mut Script) {
    let tables = [ring(4), ring(5), paper::butterfly(), LegTable::full(4)];
    let more = tables.iter().map(|table| Sheet::of(table).bytes());
    for sheet in quoted().into_iter().chain(more) {
        script.open(LIMIT, &sheet);
        script.run(BUDGET);
        script.report(80);
    }
}

fn cut_runs(script: &mut Script) {
    let mut rng = Xorshift::new(501);
    let mut sheets = vec![paper::NINE_LEGS.to_vec()];
    for family in [Family::Hubs, Family::RingWithChords, Family::ClustersAtTwo] {
        sheets.push(Sheet::of(&family.table(&mut rng, 6)).bytes());
    }
    for sheet in sheets {
        let steps = run(open(&sheet, 64).state, u32::MAX).steps;
        for budget in 0..=steps + 1 {
            script.open(64, &sheet);
            script.run(budget);
            script.run(u32::MAX);
        }
    }
}

/// One step at a time, and two steps more than there are.
fn single_steps(script: &mut Script) {
    let mut rng = Xorshift::new(502);
    for family in Family::FOR_PASSES {
        let n = rng.between(7, 10);
        let table = family.table(&mut rng, n);
        for limit in [2, 64] {
            let steps = run(WorkState::opened(&table, limit), u32::MAX).steps;
            open_table(script, limit, &table);
            for _ in 0..steps + 2 {
                script.run(1);
            }
        }
    }
}

/// States that a run leaves on its way, and some that it never does.
fn states_amid_a_cycle(script: &mut Script) {
    let nine_legs = open(&paper::NINE_LEGS, 64).state;
    for end in [End::Open, End::Stable, End::None] {
        for mark in [false, true] {
            for place in [0, 1, 3, 7] {
                script.work(&WorkState {
                    place,
                    mark,
                    end,
                    ..nine_legs
                });
                for budget in [0, 1, 3, u32::MAX] {
                    script.run(budget);
                }
            }
        }
    }
}

/// The step that ends with none leaves the mark as it was, legs struck or not.
fn struck_before_none(script: &mut Script) {
    let opened = WorkState::opened(&rung_and_dead_end(), 64);
    for mark in [false, true] {
        for place in 0..=9 {
            script.work(&WorkState {
                place,
                mark,
                ..opened
            });
            script.run(u32::MAX);
        }
    }
}

fn whole_runs(script: &mut Script) {
    let mut rng = Xorshift::new(503);
    for family in Family::FOR_PASSES {
        for n in [2, 3, 4, 5, 9, 14, 24, 40, 64] {
            let limit = rng.pick(&[1, 3, 64, 64]);
            open_table(script, limit, &family.table(&mut rng, n));
            script.run(u32::MAX);
        }
    }
    for n in [6, 11, 20, 64] {
        script.open(64, &Sheet::random(&mut rng, n).bytes());
        script.run(u32::MAX);
    }
}

/// Calls of every kind in any order, refused ones among them.
fn mixed_calls(script: &mut Script) {
    let mut rng = Xorshift::new(504);
    for _ in 0..120 {
        let n = rng.between(2, 9);
        let limit = rng.pick(&[1, 2, 3, 64]);
        open_table(script, limit, &any_table(&mut rng, n));
        for _ in 0..8 {
            match rng.below(9) {
                0 | 1 => script.sweep(),
                2 => script.chain(),
                3 => script.pass(rng.pick(&WIDE_NUMBERS)),
                4..=6 => script.pass(rng.below(n + 1) as u64),
                _ => script.run(rng.below(2 * n) as u32),
            }
        }
        script.run(u32::MAX);
        script.report(rng.between(20, 200));
    }
}
