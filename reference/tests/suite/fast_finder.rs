//! The search for the first round over words, which leaves out runs, against the search
//! that runs every node.

use reference::finder::{first_round_by, Outcome, Sought};
use reference::gen::{all_tables, any_state, any_table, Xorshift, SEARCHED, SHAPES};
use reference::state::last_place;
use reference::{fast, Calls, Plain, Telling, WorkState};

use crate::opened;

/// Holds one search to the search over the runs of other calls.
fn hold(calls: &dyn Calls, state: &WorkState, budget: u32, length: usize) -> Sought {
    let (mut list, mut expected) = (vec![200; length], vec![200; length]);
    let sought = fast::first_round(state, budget, &mut list);
    let other = first_round_by(calls, state, budget, &mut expected);
    assert_eq!((sought, list), (other, expected), "{budget} on {state}");
    sought
}

/// The whole search, and those with smaller budgets.
fn hold_with_all_budgets(state: &WorkState) -> Sought {
    let n = state.n as usize;
    let whole = hold(&Plain, state, u32::MAX, n);
    for budget in 0..whole.nodes {
        hold(&Telling, state, budget, n);
    }
    assert_eq!(hold(&Plain, state, whole.nodes, n), whole);
    whole
}

#[test]
fn all_tables_of_two_and_three_stations() {
    for table in (2..=3).flat_map(all_tables) {
        hold_with_all_budgets(&opened(&table));
    }
}

#[test]
fn made_up_tables() {
    let mut rng = Xorshift::new(210);
    let (mut found, mut none) = (0, 0);
    for _ in 0..1_000 {
        let n = rng.between(4, 9);
        let table = any_table(&mut rng, n);
        let limit = rng.pick(&[1, 2, 3, 64]);
        match hold_with_all_budgets(&WorkState::opened(&table, limit)).outcome {
            Outcome::Found => found += 1,
            Outcome::NoRound => none += 1,
            other => panic!("{other:?} with the largest budget"),
        }
    }
    assert!(found >= 150 && none >= 150, "{found} found, {none} not");
}

#[test]
fn any_state_and_lists_of_other_lengths() {
    let mut rng = Xorshift::new(210);
    for _ in 0..2_000 {
        let n = rng.between(2, 20);
        let mut state = any_state(&mut rng, n);
        if rng.percent(10) {
            state.place = last_place(state.n) + 1;
        }
        let length = rng.pick(&[n, n, n, n - 1, n + 1]);
        hold(&Telling, &state, rng.below(30) as u32, length);
    }
}

#[test]
fn tables_of_the_benchmarks() {
    let mut rng = Xorshift::new(210);
    for shape in SHAPES.iter().chain(&SEARCHED) {
        for n in [16, 32, 64] {
            let table = shape.table(&mut rng, n);
            hold(&Telling, &opened(&table), 200, n);
        }
    }
}
