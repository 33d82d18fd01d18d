//! The search for the first round: the list that is found, the nodes that are entered,
//! and the list that is left as it was where none is found.
//!
//! A search leaves the state, so a row is a state and some searches from there, mostly
//! with budgets around the number of nodes that the search takes.

mod drawn;

use std::collections::BTreeSet;

use self::drawn::{decided_late, ends_in_no_round, limit_tells, place_tells, sought};
use self::drawn::{drawn, few_and_many, long_search};
use super::bad_states::bad_states;
use super::stable::calls::{self, strikes_amid, Call, Fits};
use crate::fast;
use crate::finder::Outcome;
use crate::gen::{band, long_runs, ring, struck_above, struck_beside};
use crate::gen::{Family, Sheet, Xorshift};
use crate::paper;
use crate::program::LIMIT;
use crate::script::Script;
use crate::sheet::open;
use crate::state::{last_place, End, WorkState, SMALLEST_LIMIT};
use crate::table::LegTable;

pub fn add(script: &mut Script) {
    named_tables(script);
    empty_rows(script);
    full_tables_and_rings(script);
    most_stations(script);
    given_place_mark_and_end(script);
    limits(script);
    each_family(script);
    drawn_states(script);
    long_searches(script);
    after_calls(script);
    lists_of_other_lengths(script);
    states_that_are_bad(script);
}

fn searches(script: &mut Script, state: &WorkState, budgets: &[u32]) {
    script.work(state);
    for &budget in budgets {
        script.first_round(budget, state.n as u8);
    }
}

/// None, one, half of the nodes, as many as it takes, one less, one more and the most.
fn every_budget(script: &mut Script, state: &WorkState) {
    let nodes = sought(state).nodes;
    let around = [nodes - 1, nodes, nodes + 1];
    let budgets = [0, 1, nodes / 2, u32::MAX].into_iter().chain(around);
    let rising: BTreeSet<u32> = budgets.collect();
    searches(script, state, &Vec::from_iter(rising));
}

fn nine_legs() -> LegTable {
    open(&paper::NINE_LEGS, LIMIT).state.table()
}

/// The run of the butterfly ends none with the highest limit; with the lowest the search
/// goes on, as it does on the Petersen graph with any. In the others runs strike much, and
/// what they leave depends on the legs that they start with.
fn named_tables(script: &mut Script) {
    let papers = [
        LegTable::full(3),
        paper::catalogue(),
        nine_legs(),
        paper::butterfly(),
        paper::petersen(),
        paper::greedy_trap(),
        paper::valley(),
        paper::dead_end(),
    ];
    let starts_that_tell = [struck_above(), struck_beside()];
    let others = long_runs().into_iter().chain(starts_that_tell);
    for table in papers.into_iter().chain(others) {
        for limit in [SMALLEST_LIMIT, LIMIT] {
            every_budget(script, &WorkState::opened(&table, limit));
        }
    }
}

/// No legs at all, or none from one station.
fn empty_rows(script: &mut Script) {
    for n in [2, 5, 64] {
        every_budget(script, &WorkState::opened(&LegTable::empty(n), LIMIT));
    }
    for station in [1, 4, 6] {
        let others = LegTable::full(6).legs();
        let others = others.into_iter().filter(|&(i, _)| i != station);
        let table = LegTable::from_legs(6, others);
        every_budget(script, &WorkState::opened(&table, LIMIT));
    }
}

fn full_tables_and_rings(script: &mut Script) {
    for n in [2, 4, 5, 6, 7, 8, 10, 12] {
        every_budget(script, &WorkState::opened(&LegTable::full(n), LIMIT));
        every_budget(script, &WorkState::opened(&ring(n), LIMIT));
    }
}

/// With the lowest limit: plain passes over so many stations take long.
fn most_stations(script: &mut Script) {
    let lowest = |table: &LegTable| WorkState::opened(table, SMALLEST_LIMIT);
    searches(script, &lowest(&ring(64)), &[0, 1, 64, 65, u32::MAX]);
    searches(script, &lowest(&band(64)), &[65]);
    for n in [16, 32, 64] {
        let state = lowest(&LegTable::full(n));
        searches(script, &state, &[2, n as u32 + 1]);
    }
}

/// None of them is used: an end of none or stable leaves out no step.
fn given_place_mark_and_end(script: &mut Script) {
    for table in [nine_legs(), paper::catalogue(), paper::butterfly()] {
        let opened = WorkState::opened(&table, LIMIT);
        let last = last_place(opened.n);
        let nodes = sought(&opened).nodes;
        for end in [End::Open, End::Stable, End::None] {
            for (place, mark) in [
                (0, false),
                (0, true),
                (1, false),
                (last, false),
                (last, true),
            ] {
                let state = WorkState {
                    place,
                    mark,
                    end,
                    ..opened
                };
                searches(script, &state, &[nodes - 1, nodes]);
            }
        }
    }
}

/// The nodes of the same table with several limits.
fn limits(script: &mut Script) {
    let mut rng = Xorshift::new(1601);
    for n in 5..=9 {
        let state = drawn(&mut rng, n, limit_tells);
        for limit in [1, 2, 3, LIMIT] {
            every_budget(script, &WorkState { limit, ..state });
        }
    }
}

/// Of each family the searches with the fewest and the most nodes.
fn each_family(script: &mut Script) {
    let mut rng = Xorshift::new(1602);
    for family in Family::FOR_PASSES.iter().chain(&Family::FOR_CHAINS) {
        for state in few_and_many(&mut rng, *family) {
            every_budget(script, &state);
        }
    }
}

/// The first child of the root fails; several nodes lead to no round; a root that is run
/// from the given place has other nodes below it.
fn drawn_states(script: &mut Script) {
    let mut rng = Xorshift::new(1603);
    for fits in [decided_late, ends_in_no_round, place_tells] {
        for n in 5..=10 {
            every_budget(script, &drawn(&mut rng, n, fits));
        }
    }
}

/// Some hundred nodes.
fn long_searches(script: &mut Script) {
    let mut rng = Xorshift::new(1604);
    for outcome in [Outcome::Found, Outcome::NoRound] {
        for n in [12, 16] {
            every_budget(script, &long_search(&mut rng, n, outcome));
        }
    }
}

/// Do the calls strike legs of a table whose run ends none after them?
fn strikes_before_none(opened: WorkState, calls: &[Call]) -> bool {
    let state = calls.iter().fold(opened, |state, call| call.after(state));
    let ended = fast::run(state, u32::MAX).state.end;
    state.end == End::Open && state.rows != opened.rows && ended == End::None
}

/// Before the first call and after each; the last one is a run to the end.
fn after_calls(script: &mut Script) {
    let mut rng = Xorshift::new(1605);
    let stable = (4..=10).map(|n| (n, strikes_amid as Fits));
    let none = [5, 8].map(|n| (n, strikes_before_none as Fits));
    for (n, fits) in stable.chain(none) {
        let (table, limit, calls) = calls::drawn(&mut rng, n, fits);
        script.open(limit, &Sheet::short(&table).bytes());
        script.first_round(u32::MAX, n as u8);
        for call in calls.iter().chain([&Call::Run(u32::MAX)]) {
            call.add(script);
            script.first_round(u32::MAX, n as u8);
        }
    }
}

/// Shorter, longer and empty ones are refused, also with no budget.
fn lists_of_other_lengths(script: &mut Script) {
    for n in [2, 5, 63, 64] {
        for table in [ring(n), LegTable::empty(n)] {
            script.work(&WorkState::opened(&table, SMALLEST_LIMIT));
            let n = n as u8;
            for length in [0, 1, n - 1, n + 1, 64, 255] {
                if length != n {
                    script.first_round(0, length);
                    script.first_round(u32::MAX, length);
                }
            }
        }
    }
}

/// The state is checked before the list, and both before the budget.
fn states_that_are_bad(script: &mut Script) {
    for state in [WorkState::BLANK].into_iter().chain(bad_states()) {
        script.work(&state);
        for (budget, length) in [(0, 5), (u32::MAX, 5), (7, 0), (7, 2), (7, 64), (7, 255)] {
            script.first_round(budget, length);
        }
    }
}
