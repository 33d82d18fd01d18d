//! Stable states that calls from an opened sheet have led to stay as they are (W-212).

use reference::compare::{watch_sheet, Counts};
use reference::gen::{all_tables, any_table, last_seed_alone, split_budget};
use reference::gen::{Family, Xorshift, SHAPES};
use reference::hand::Verdict;
use reference::paper::{petersen, NINE_LEGS};
use reference::pass::pass_table;
use reference::program::BUDGET;
use reference::rounds::{drivable_legs, rounds};
use reference::run::run_with;
use reference::stable::{fault, fault_of_run_anew, fault_of_step, opened_anew};
use reference::state::cycle;
use reference::turns::take;
use reference::{card, open, Calls, End, Fast, LegTable, Plain, Telling, WorkState};

use crate::{opened, ALL, FAST};

/// Holds a state to what is said of it if it is stable; is it?
fn held(calls: &dyn Calls, state: &WorkState) -> bool {
    if state.end != End::Stable {
        return false;
    }
    assert_eq!(fault(calls, state), None, "{state}");
    true
}

/// Any step by hand or a few steps of a run.
fn any_call(calls: &dyn Calls, rng: &mut Xorshift, state: WorkState) -> WorkState {
    match rng.below(5) {
        0 => calls.sweep(state).state,
        1 => calls.chain(state).state,
        2 | 3 => {
            calls
                .pass(state, rng.between(1, state.n as usize) as u64)
                .state
        }
        _ => calls.run(state, rng.between(1, 4) as u32).state,
    }
}

/// Calls in any order from an opened state, then runs in turns, then calls again. Every
/// stable state on the way is held; how many are there?
fn hold_on_the_way(calls: &dyn Calls, rng: &mut Xorshift, opened: WorkState) -> usize {
    let mut way = vec![opened];
    for _ in 0..rng.below(5) {
        way.push(any_call(calls, rng, way[way.len() - 1]));
    }
    let mut budgets = split_budget(rng, &way[way.len() - 1]);
    budgets.push(BUDGET);
    let turns = take(calls, way[way.len() - 1], &budgets);
    way.extend(turns.iter().map(|turn| turn.ran.state));
    for _ in 0..2 {
        way.push(any_call(calls, rng, way[way.len() - 1]));
    }
    way.dedup();
    way.iter().filter(|state| held(calls, state)).count()
}

/// The run of the opened state, and ways to other stable states.
fn hold_all(calls: &dyn Calls, rng: &mut Xorshift, opened: WorkState) -> usize {
    let ran = calls.run(opened, BUDGET);
    usize::from(held(calls, &ran.state)) + hold_on_the_way(calls, rng, opened)
}

#[test]
fn all_tables_of_two_and_three_stations() {
    let mut rng = Xorshift::new(81);
    let mut stable = 0;
    for table in (2..=3).flat_map(all_tables) {
        for limit in [1, 2, 3, 64] {
            for calls in ALL {
                for _ in 0..4 {
                    stable += hold_all(calls, &mut rng, WorkState::opened(&table, limit));
                }
            }
        }
    }
    assert!(stable > 1_000, "{stable}");
}

#[test]
fn some_tables_of_four_stations() {
    let mut rng = Xorshift::new(82);
    let mut stable = 0;
    for table in all_tables(4) {
        let limit = rng.pick(&[1, 2, 3, 64]);
        let (fast, plain) = (rng.percent(50), rng.percent(10));
        let calls = ALL.iter().skip(usize::from(!plain));
        for &calls in calls.filter(|_| fast || plain) {
            stable += hold_all(calls, &mut rng, WorkState::opened(&table, limit));
        }
    }
    assert!(stable > 1_000, "{stable}");
}

#[test]
fn made_up_tables_of_2_to_64_stations() {
    let mut rng = Xorshift::new(83);
    let mut stable = 0;
    for _ in 0..1_500 {
        let n = rng.between(2, 64);
        let table = any_table(&mut rng, n);
        let limit = rng.pick(&[1, 2, 3, 64]);
        for fast in FAST {
            stable += hold_all(fast, &mut rng, WorkState::opened(&table, limit));
        }
    }
    assert!(stable > 1_000, "{stable}");
}

#[test]
fn made_up_tables_of_2_to_12_stations_by_plain_calls() {
    let mut rng = Xorshift::new(84);
    let mut stable = 0;
    for _ in 0..600 {
        let n = rng.between(2, 12);
        let table = any_table(&mut rng, n);
        let limit = rng.pick(&[1, 2, 3, 64]);
        stable += hold_all(&Plain, &mut rng, WorkState::opened(&table, limit));
    }
    assert!(stable > 200, "{stable}");
}

/// They have a round each, apart from some roads, so that most runs end stable.
#[test]
fn the_tables_of_the_benchmarks() {
    let mut rng = Xorshift::new(85);
    for shape in &SHAPES {
        for n in [8, 16, 32, 64] {
            let state = opened(&shape.table(&mut rng, n));
            let stable = FAST.map(|fast| hold_all(fast, &mut rng, state));
            let round = shape.name != "roads";
            assert!(!round || !stable.contains(&0), "{} {n}", shape.name);
        }
        let state = opened(&shape.table(&mut rng, 8));
        hold_all(&Plain, &mut rng, state);
    }
}

#[test]
fn all_families_on_64_stations() {
    let mut rng = Xorshift::new(86);
    for family in Family::FOR_PASSES.into_iter().chain(Family::FOR_CHAINS) {
        let state = opened(&family.table(&mut rng, 64));
        for fast in FAST {
            hold_all(fast, &mut rng, state);
        }
    }
}

/// Opened anew, every budget up to two cycles.
#[test]
fn every_budget_opens_it_anew() {
    let nine = open(&NINE_LEGS, 64).state;
    for state in [nine, opened(&petersen()), opened(&LegTable::full(5))] {
        for calls in ALL {
            let stable = calls.run(state, BUDGET).state;
            for budget in 0..=2 * cycle(stable.n) {
                let ran = calls.run(opened_anew(&stable), budget);
                assert_eq!(fault_of_run_anew(&stable, budget, &ran), None, "{budget}");
            }
        }
    }
}

/// What stable does not mean: that a leg left is drivable. No leg of the Petersen graph
/// is, and none is removed.
#[test]
fn the_petersen_graph_is_stable_without_a_round() {
    let table = petersen();
    let sheet = include_bytes!("../../../sheets/petersen");
    assert_eq!(open(sheet, 64).state, opened(&table));
    assert!(rounds(&table).is_empty() && drivable_legs(&table).is_empty());
    let before = opened(&table);
    let stable = WorkState {
        end: End::Stable,
        ..before
    };
    for calls in ALL {
        let ran = calls.run(before, BUDGET);
        assert_eq!((ran.number, ran.steps, ran.removed), (card::TAKEN, 12, 0));
        assert_eq!((ran.state, ran.state.legs()), (stable, 30));
        assert!(held(calls, &ran.state));
    }
}

/// A stable end that no calls have led to means nothing: the sweep of the nine legs
/// removes three.
#[test]
fn a_made_up_stable_state_may_change() {
    let opened = open(&NINE_LEGS, 64).state;
    let end = End::Stable;
    let made_up = WorkState { end, ..opened };
    for calls in ALL {
        let swept = calls.sweep(made_up);
        assert_eq!((swept.removed, swept.state.end), (3, End::Open));
        assert!(fault_of_step(&made_up, &swept).is_some());
        assert!(fault(calls, &made_up).is_some());
        // A run believes the end.
        assert_eq!(calls.run(made_up, BUDGET).state, made_up);
    }
}

/// The tables made for the last seed need its pass: without it there is more to do.
#[test]
fn the_last_seed_alone_removes_legs() {
    let mut rng = Xorshift::new(87);
    for _ in 0..100 {
        let state = opened(&last_seed_alone(&mut rng));
        let n = state.n as usize;
        let without = run_with(state, BUDGET, |table, seed, limit| match seed {
            seed if seed == n => Verdict::Undecided,
            _ => pass_table(table, seed, limit),
        });
        let stable = without.state;
        assert_eq!(stable.end, End::Stable);
        let idle = (1..n as u64).all(|seed| Fast.pass(stable, seed).state == stable);
        assert!(idle && Fast.pass(stable, n as u64).removed > 0);
    }
}

/// Each of the counts is asked for.
#[test]
fn a_count_that_is_0_is_told() {
    let mut sum = Counts::default();
    for index in 0..400 {
        let counts = watch_sheet(&Telling, 5, index).unwrap_or_else(|found| panic!("{found}"));
        sum.add(&counts);
    }
    let sum = sum.stable;
    assert!(sum.complete() && sum.states > 100 && sum.after_hand > 20 && sum.made_up > 50);
    assert!(sum.steps > 1_000 && sum.stray == 4 * sum.states);
    assert_eq!((sum.anew, sum.sheets), (3 * sum.states, sum.states));
    let mut without = [(); 7].map(|()| sum.clone());
    without[0].states = 0;
    without[1].after_hand = 0;
    without[2].steps = 0;
    without[3].stray = 0;
    without[4].anew = 0;
    without[5].sheets = 0;
    without[6].made_up = 0;
    assert!(without.iter().all(|counts| !counts.complete()));
}
