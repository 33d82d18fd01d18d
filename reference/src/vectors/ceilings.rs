//! Runs beside their ceilings: the longest ones that were found, from opened states and
//! from mid-cycle, with just enough budget and with one step less.

use crate::ceiling::ceiling;
use crate::fast;
use crate::gen::{band, long_runs, Record, Sheet};
use crate::program::{BUDGET, LIMIT};
use crate::script::Script;
use crate::sheet::open;
use crate::state::{cycle, last_place, WorkState, SMALLEST_LIMIT};
use crate::table::LegTable;

pub fn add(script: &mut Script) {
    for table in long_runs() {
        from_opening(script, LIMIT, &Sheet::short(&table).bytes());
    }
    lowest_limit(script);
    two_stations(script);
    most_stations(script);
    no_legs(script);
    cut_in_mid_cycle(script);
    from_mid_cycle(script);
    last_places(script);
}

/// Budgets for runs in turn from the same state: its ceiling; its steps; one less, then
/// the step that is missing, then one that is not taken; that of the program.
fn budgets(state: &WorkState) -> [Vec<u32>; 4] {
    // The plain run of many stations takes long.
    let steps = fast::run(*state, u32::MAX).steps;
    [
        vec![ceiling(state)],
        vec![steps],
        vec![steps - 1, 1, 1],
        vec![BUDGET],
    ]
}

fn runs(script: &mut Script, budgets: &[u32]) {
    for &budget in budgets {
        script.run(budget);
    }
}

/// With all of these budgets.
fn from_opening(script: &mut Script, limit: u64, sheet: &[u8]) {
    for budgets in budgets(&open(sheet, limit).state) {
        script.open(limit, sheet);
        runs(script, &budgets);
    }
}

fn with_ceiling(script: &mut Script, state: &WorkState) {
    script.work(state);
    script.run(ceiling(state));
}

/// A run on four stations that comes as near to its ceiling as any with this limit, and
/// nearer than all with the highest.
fn lowest_limit(script: &mut Script) {
    let legs = [(1, 2), (1, 3), (2, 3), (2, 4), (3, 1), (3, 2), (4, 1)];
    let table = LegTable::from_legs(4, legs);
    from_opening(script, SMALLEST_LIMIT, &Sheet::short(&table).bytes());
}

/// Tables of one leg and of none; that of both legs is among the long runs.
fn two_stations(script: &mut Script) {
    for sheet in [[2, 4, 1, 0], [2, 0, 4, 2]] {
        from_opening(script, LIMIT, &sheet);
    }
    from_opening(script, LIMIT, &sheet_of_no_legs(2));
}

/// All legs, where the ceiling is highest, and a run of many cycles.
fn most_stations(script: &mut Script) {
    from_opening(script, LIMIT, &Sheet::plain(64).bytes());
    let sheet = Sheet::of(&band(64)).bytes();
    let [ceiling, _, one_less, _] = budgets(&open(&sheet, LIMIT).state);
    for budgets in [ceiling, one_less] {
        script.open(LIMIT, &sheet);
        runs(script, &budgets);
    }
}

/// Each station is fixed to itself.
fn sheet_of_no_legs(n: u8) -> Vec<u8> {
    let record = |station| Record {
        fixed: Some(station),
        ..Record::default()
    };
    let records = (1..=n).map(record).collect();
    Sheet { records }.bytes()
}

fn no_legs(script: &mut Script) {
    from_opening(script, LIMIT, &sheet_of_no_legs(64));
    // A pass finds stations out of reach, at the end of a cycle.
    with_ceiling(script, &at(&LegTable::empty(64), last_place(64), true));
}

/// A run that is cut after a leg went goes on with the mark set.
fn cut_in_mid_cycle(script: &mut Script) {
    for table in long_runs() {
        let opened = WorkState::opened(&table, LIMIT);
        let cycle = cycle(opened.n);
        let cut = fast::run(opened, cycle + cycle / 2).state;
        if cut.mark {
            script.open(LIMIT, &Sheet::short(&table).bytes());
            runs(script, &[cycle, cycle / 2, ceiling(&cut)]);
        }
    }
}

fn at(table: &LegTable, place: u64, mark: bool) -> WorkState {
    WorkState {
        place,
        mark,
        ..WorkState::opened(table, LIMIT)
    }
}

/// With the mark set from the start, so that the first cycle need not strike a leg. From
/// the last place it has one step.
fn from_mid_cycle(script: &mut Script) {
    let [two, .., eight, _, sixteen] = long_runs();
    for table in [&two, &eight] {
        let begun = at(table, 0, true);
        with_ceiling(script, &begun);
        let [_, _, one_less, _] = budgets(&begun);
        script.work(&begun);
        runs(script, &one_less);
    }
    let full = LegTable::full(64);
    for (table, place) in [(&eight, 6), (&sixteen, 1), (&full, 0), (&full, 65)] {
        with_ceiling(script, &at(table, place, true));
    }
}

/// One step is left of the cycle. It is the last of all if the mark is clear.
fn last_places(script: &mut Script) {
    for mark in [false, true] {
        script.work(&at(&LegTable::full(2), last_place(2), mark));
        runs(script, &[1, BUDGET]);
    }
}
