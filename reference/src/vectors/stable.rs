//! Stable means it: on a stable state that calls have led to from an opening no step by
//! hand does anything, a run takes no step, and its table, opened anew, is stable again
//! after one cycle.
//!
//! A row is an opening, calls that lead to a stable state, every step and some runs from
//! there, then the same table as a work state at rest with its runs, then as the sheet
//! that is written of it. The last states are made up: they say stable from the start,
//! and a step does change them, so it is the opening that counts.

pub(super) mod calls;

use self::calls::{calls, drawn, needs_reopening, strikes_amid, Call, Fits};
use crate::fast;
use crate::gen::{chain_among, long_runs, loop_among, ring, ring_of_rungs};
use crate::gen::{Family, Sheet, Xorshift};
use crate::lines::station_lines;
use crate::paper;
use crate::program::LIMIT;
use crate::script::Script;
use crate::sheet::open;
use crate::stable::{opened_anew, stray_seeds};
use crate::state::{cycle, End, WorkState, SMALLEST_LIMIT};
use crate::table::LegTable;
use crate::written::written_sheet;

pub fn add(script: &mut Script) {
    no_round(script);
    named_tables(script);
    limits_that_tell(script);
    most_stations(script);
    random_calls(script);
    made_up_states(script);
}

fn opened(script: &mut Script, limit: u64, table: &LegTable) -> WorkState {
    script.open(limit, &Sheet::short(table).bytes());
    WorkState::opened(table, limit)
}

/// These calls, and a run to the end.
fn to_stable(script: &mut Script, opened: WorkState, calls: &[Call]) -> WorkState {
    let mut state = opened;
    for call in calls.iter().chain([&Call::Run(u32::MAX)]) {
        call.add(script);
        state = call.after(state);
    }
    assert_eq!(state.end, End::Stable);
    state
}

/// All that a row does on its stable state.
fn tried(script: &mut Script, stable: &WorkState) {
    every_step(script, stable.n);
    for budget in [0, 1, u32::MAX] {
        script.run(budget);
    }
    runs_anew(script, stable);
    written_and_opened(script, stable);
}

/// With every seed and with stray ones.
fn every_step(script: &mut Script, n: u64) {
    script.sweep();
    script.chain();
    for seed in (1..=n).chain(stray_seeds(n)) {
        script.pass(seed);
    }
}

/// One step before the end of the cycle, with just enough budget and with more.
fn runs_anew(script: &mut Script, stable: &WorkState) {
    let cycle = cycle(stable.n);
    for budgets in [&[cycle - 1, 1][..], &[cycle], &[u32::MAX]] {
        script.work(&opened_anew(stable));
        for &budget in budgets {
            script.run(budget);
        }
    }
}

fn written_and_opened(script: &mut Script, stable: &WorkState) {
    let sheet = written_sheet(&stable.table());
    script.write(sheet.len());
    script.open(stable.limit, &sheet);
    script.run(u32::MAX);
}

/// A row that begins with a sheet.
fn by_sheet(script: &mut Script, limit: u64, table: &LegTable) {
    let opened = opened(script, limit, table);
    let stable = to_stable(script, opened, &[]);
    tried(script, &stable);
}

/// A row that begins with the same state as a work state.
fn at_rest(script: &mut Script, limit: u64, table: &LegTable) {
    let state = WorkState::opened(table, limit);
    script.work(&state);
    let stable = to_stable(script, state, &[]);
    tried(script, &stable);
}

/// The Petersen graph is stable with all its legs, though no list drives it: two loops
/// of five; one of nine, and a station beside it; a way through all stations that does
/// not come back; pairs.
fn no_round(script: &mut Script) {
    let table = paper::petersen();
    let length = station_lines(&table).len();
    let opened = opened(script, LIMIT, &table);
    script.report(length);
    let stable = to_stable(script, opened, &[]);
    script.report(length);
    for list in [
        [2, 3, 4, 5, 1, 8, 9, 10, 6, 7],
        [2, 3, 8, 5, 1, 1, 9, 10, 4, 7],
        [2, 3, 4, 5, 10, 8, 9, 1, 6, 7],
        [6, 7, 8, 9, 10, 1, 2, 3, 4, 5],
    ] {
        script.list(&list);
    }
    tried(script, &stable);
    at_rest(script, 3, &table);
}

/// With the highest limit by sheets, with the lowest as work states.
fn named_tables(script: &mut Script) {
    let nine_legs = open(&paper::NINE_LEGS, LIMIT).state.table();
    let named = [nine_legs, paper::catalogue(), paper::valley()];
    let plain = [LegTable::full(2), LegTable::full(3), ring(5)];
    for table in named.iter().chain(&plain) {
        by_sheet(script, LIMIT, table);
        at_rest(script, SMALLEST_LIMIT, table);
    }
    // The first of the long runs is that of both legs of two stations.
    for table in &long_runs()[1..] {
        by_sheet(script, LIMIT, table);
    }
}

/// Stable with a low limit, though passes with the highest have more to strike, or give
/// none. All but the butterfly have their rows with the highest, too.
fn limits_that_tell(script: &mut Script) {
    let [.., five, _, eight, _, sixteen] = long_runs();
    let (rungs, butterfly) = (ring_of_rungs(8), paper::butterfly());
    for (limit, table) in [
        (1, &five),
        (3, &eight),
        (2, &sixteen),
        (1, &rungs),
        (1, &butterfly),
    ] {
        let opened = opened(script, limit, table);
        let stable = to_stable(script, opened, &[]);
        let higher = WorkState {
            limit: LIMIT,
            ..stable
        };
        assert_ne!(fast::run(opened_anew(&higher), u32::MAX).state, higher);
        tried(script, &stable);
    }
    by_sheet(script, LIMIT, &rungs);
}

/// A two-way ring is left.
fn most_stations(script: &mut Script) {
    let table = Family::RingWithRungs.table(&mut Xorshift::new(1503), 64);
    by_sheet(script, LIMIT, &table);
}

/// Calls like those that led to the stable state do nothing on it.
fn random_calls(script: &mut Script) {
    let mut rng = Xorshift::new(1501);
    let rare = [5, 6, 8].map(|n| (n, needs_reopening as Fits));
    let others = [4, 7, 9, 10, 11, 12, 13, 14, 16].map(|n| (n, strikes_amid as Fits));
    for (n, fits) in rare.into_iter().chain(others) {
        let (table, limit, before) = drawn(&mut rng, n, fits);
        let opened = opened(script, limit, &table);
        let stable = to_stable(script, opened, &before);
        for call in calls(&mut rng, n) {
            call.add(script);
        }
        tried(script, &stable);
    }
}

/// Each kind of step strikes legs of some of these and gives none on others. A run takes
/// no step on any.
fn made_up_states(script: &mut Script) {
    let nine_legs = open(&paper::NINE_LEGS, LIMIT).state.table();
    let struck = [
        (nine_legs, Call::Sweep),
        (chain_among(3, 5), Call::Chain),
        (ring_of_rungs(6), Call::Pass(1)),
    ];
    let none = [
        (LegTable::empty(2), Call::Sweep),
        (loop_among(2, 4), Call::Chain),
        (paper::butterfly(), Call::Pass(1)),
    ];
    for (table, step) in struck.iter().chain(&none) {
        for (place, mark) in [(0, false), (3, true)] {
            let state = WorkState {
                end: End::Stable,
                place,
                mark,
                ..WorkState::opened(table, LIMIT)
            };
            assert_ne!(step.after(state), state);
            script.work(&state);
            script.run(u32::MAX);
            step.add(script);
        }
    }
}
