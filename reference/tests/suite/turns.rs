//! Runs in turns add up to one run (W-211).

use reference::gen::{all_tables, any_state, split_budget, Family, Xorshift};
use reference::paper::NINE_LEGS;
use reference::state::last_place;
use reference::turns::{budget_of, fault, take, together, Together};
use reference::{card, open, Calls, End, LegTable, Plain, WorkState};

use crate::{ALL, FAST};

const ENDS: [End; 3] = [End::Open, End::Stable, End::None];

fn hold(calls: &dyn Calls, state: WorkState, budgets: &[u32]) {
    let budget = budget_of(budgets).expect("a budget");
    let one = calls.run(state, budget);
    let found = fault(&take(calls, state, budgets), &one);
    assert_eq!(found, None, "{budgets:?} on {state}");
}

/// Every split into two of one step more than the whole run takes.
fn hold_every_split(calls: &dyn Calls, state: WorkState) {
    let whole = calls.run(state, u32::MAX);
    let budget = whole.steps + 1;
    for first in 0..=budget {
        let turns = take(calls, state, &[first, budget - first]);
        assert_eq!(fault(&turns, &whole), None, "{first} on {state}");
    }
}

/// The table at every place with both marks and all ends.
fn in_every_state(table: &LegTable, limit: u64) -> impl Iterator<Item = WorkState> {
    let state = WorkState::opened(table, limit);
    let places = 0..=last_place(state.n);
    let marked = places.flat_map(|place| [(place, false), (place, true)]);
    let ended = marked.flat_map(|(place, mark)| ENDS.map(|end| (place, mark, end)));
    ended.map(move |(place, mark, end)| WorkState {
        place,
        mark,
        end,
        ..state
    })
}

#[test]
fn all_tables_of_two_and_three_stations() {
    for table in (2..=3).flat_map(all_tables) {
        for state in [1, 64].into_iter().flat_map(|l| in_every_state(&table, l)) {
            for calls in ALL {
                hold_every_split(calls, state);
            }
        }
    }
}

#[test]
fn some_tables_of_four_stations() {
    let mut rng = Xorshift::new(71);
    for table in all_tables(4) {
        let (fast, plain) = (rng.percent(20), rng.percent(1));
        let calls = ALL.iter().skip(usize::from(!plain));
        for &calls in calls.filter(|_| fast || plain) {
            for state in in_every_state(&table, 64) {
                hold_every_split(calls, state);
            }
        }
    }
}

#[test]
fn made_up_tables_of_2_to_64_stations() {
    let mut rng = Xorshift::new(72);
    for _ in 0..2_000 {
        let n = rng.between(2, 64);
        let state = any_state(&mut rng, n);
        let budgets = split_budget(&mut rng, &state);
        for fast in FAST {
            hold(fast, state, &budgets);
        }
    }
}

#[test]
fn made_up_tables_of_2_to_12_stations_by_plain_calls() {
    let mut rng = Xorshift::new(73);
    for _ in 0..1_000 {
        let n = rng.between(2, 12);
        let state = any_state(&mut rng, n);
        let budgets = split_budget(&mut rng, &state);
        hold(&Plain, state, &budgets);
    }
}

/// The shortest turns: one step each, as many as the run has and one more.
#[test]
fn step_by_step() {
    let mut rng = Xorshift::new(74);
    for family in Family::FOR_PASSES.into_iter().chain(Family::FOR_CHAINS) {
        for n in [2, 5, 12, 33, 64] {
            let state = WorkState::opened(&family.table(&mut rng, n), 64);
            for fast in FAST {
                let steps = fast.run(state, u32::MAX).steps;
                hold(fast, state, &vec![1; steps as usize + 1]);
            }
        }
    }
}

/// The paper's table takes 16 steps and loses 3 legs.
#[test]
fn the_nine_legs_in_turns() {
    let state = open(&NINE_LEGS, 64).state;
    for calls in ALL {
        for first in 0..=16 {
            let turns = take(calls, state, &[first, 16 - first]);
            let sum = together(&turns);
            assert_eq!((sum.number, sum.steps, sum.removed), (card::TAKEN, 16, 3));
            assert_eq!((turns[0].ran.steps, sum.state.end), (first, End::Stable));
        }
    }
}

/// Every turn of a row with the largest sum; one more has no run to be held to.
#[test]
fn the_largest_sum() {
    let state = open(&NINE_LEGS, 64).state;
    let half = 1 << 31;
    for budgets in [
        [half, half - 1],
        [0, u32::MAX],
        [u32::MAX, 0],
        [5, u32::MAX - 5],
    ] {
        assert_eq!(budget_of(&budgets), Some(u32::MAX));
        for calls in ALL {
            hold(calls, state, &budgets);
        }
    }
    for budgets in [[half, half], [1, u32::MAX], [u32::MAX, u32::MAX]] {
        assert_eq!(budget_of(&budgets), None);
    }
    assert_eq!(budget_of(&[]), Some(0));
}

#[test]
fn a_budget_of_0_changes_nothing() {
    for calls in ALL {
        for state in in_every_state(&LegTable::full(5), 64) {
            let turns = take(calls, state, &[0; 3]);
            let unchanged = Together {
                number: card::TAKEN,
                state,
                steps: 0,
                removed: 0,
            };
            assert_eq!(together(&turns), unchanged);
        }
    }
}

/// A bad state is refused by each turn, whatever its budget, and stays as it is.
#[test]
fn bad_states_are_refused_each_time() {
    let good = WorkState::opened(&LegTable::full(5), 64);
    let mut own_leg = good;
    own_leg.rows[2] |= 1 << 2;
    let bad = [
        WorkState { n: 65, ..good },
        WorkState { limit: 0, ..good },
        WorkState { place: 7, ..good },
        own_leg,
        WorkState::BLANK,
    ];
    for state in bad
        .into_iter()
        .flat_map(|state| ENDS.map(|end| WorkState { end, ..state }))
    {
        for calls in ALL {
            let turns = take(calls, state, &[0, 3, u32::MAX - 3]);
            let numbers = turns.iter().map(|turn| turn.ran.number);
            assert!(numbers.eq([card::BAD_WORK_STATE; 3]));
            assert_eq!(fault(&turns, &calls.run(state, u32::MAX)), None);
        }
    }
}

/// Why no hand call may stand between: a sweep that strikes legs shortens the run.
#[test]
fn a_hand_call_between_two_turns_tells() {
    let state = open(&NINE_LEGS, 64).state;
    for calls in ALL {
        let first = calls.run(state, 0);
        let swept = calls.sweep(first.state);
        let last = calls.run(swept.state, 16);
        assert_eq!((swept.removed, last.steps, last.removed), (3, 8, 0));
    }
}
