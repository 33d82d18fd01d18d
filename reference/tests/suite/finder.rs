//! The search for the first round (W-210), beside all rounds of small tables.

use reference::finder::{Outcome, Sought};
use reference::gen::{all_tables, any_state, any_table, ring, struck_above, Xorshift};
use reference::paper::{self, NINE_LEGS};
use reference::rounds::rounds;
use reference::{card, open, Calls, End, Fast, LegTable, WorkState};

use crate::{opened, ALL};

/// Stands for no station and differs from every list.
const UNWRITTEN: u8 = 200;

/// The answer and the list as it is left.
fn sought(calls: &dyn Calls, state: &WorkState, budget: u32) -> (Sought, Vec<u8>) {
    let mut list = vec![UNWRITTEN; state.n as usize];
    (calls.first_round(state, budget, &mut list), list)
}

fn taken(outcome: Outcome, nodes: u32) -> Sought {
    Sought {
        number: card::TAKEN,
        outcome,
        nodes,
    }
}

/// The first of all rounds, tried one by one.
fn first_of(table: &LegTable) -> Option<Vec<u8>> {
    let first = rounds(table).into_iter().min()?;
    Some(first.into_iter().map(|next| next as u8).collect())
}

/// Holds the whole search to all rounds, and those with smaller budgets to it.
fn hold(calls: &dyn Calls, state: &WorkState) {
    let (whole, list) = sought(calls, state, u32::MAX);
    let (outcome, expected) = match first_of(&state.table()) {
        Some(first) => (Outcome::Found, first),
        None => (Outcome::NoRound, vec![UNWRITTEN; state.n as usize]),
    };
    assert_eq!((whole.outcome, &list), (outcome, &expected), "{state}");
    assert!(outcome == Outcome::NoRound || u64::from(whole.nodes) > state.n);
    for budget in [0, whole.nodes / 2, whole.nodes - 1] {
        let (cut, list) = sought(calls, state, budget);
        assert_eq!(cut, taken(Outcome::UsedUp, budget), "{budget} on {state}");
        assert!(list.iter().all(|&byte| byte == UNWRITTEN));
    }
    for budget in [whole.nodes, whole.nodes + 1] {
        assert_eq!(sought(calls, state, budget), (whole, list.clone()));
    }
}

#[test]
fn all_tables_of_two_and_three_stations() {
    for table in (2..=3).flat_map(all_tables) {
        for limit in [1, 2, 64] {
            for calls in ALL {
                hold(calls, &WorkState::opened(&table, limit));
            }
        }
    }
}

#[test]
fn all_tables_of_four_stations() {
    for table in all_tables(4) {
        hold(&Fast, &opened(&table));
    }
}

#[test]
fn made_up_states_of_2_to_8_stations() {
    let mut rng = Xorshift::new(91);
    for _ in 0..400 {
        let n = rng.between(2, 8);
        let state = any_state(&mut rng, n);
        for calls in ALL {
            hold(calls, &state);
        }
    }
}

/// Plain sets and words of bits enter the same nodes.
#[test]
fn made_up_states_of_9_to_20_stations() {
    let mut rng = Xorshift::new(92);
    for _ in 0..60 {
        let n = rng.between(9, 20);
        let state = any_state(&mut rng, n);
        let [plain, fast, telling] = ALL.map(|calls| sought(calls, &state, 40));
        assert_eq!((&plain, &plain), (&fast, &telling), "{state}");
    }
}

/// The nine legs have one round and the catalogue's instance has two; the Petersen graph
/// has none, and its stable root does not tell.
#[test]
fn tables_that_are_named() {
    let nine_legs = open(&NINE_LEGS, 64).state;
    let catalogue = opened(&paper::catalogue());
    let petersen = opened(&paper::petersen());
    let struck_above = opened(&struck_above());
    let struck_above_list = first_of(&struck_above.table()).expect("a round");
    for calls in ALL {
        for (state, nodes, list) in [
            (&nine_legs, 7, vec![4, 5, 6, 2, 3, 1]),
            (&catalogue, 5, vec![3, 1, 4, 2]),
            (&struck_above, 8, struck_above_list.clone()),
        ] {
            let found = taken(Outcome::Found, nodes);
            assert_eq!(sought(calls, state, u32::MAX), (found, list));
        }
        let (answer, _) = sought(calls, &petersen, u32::MAX);
        assert_eq!(answer.outcome, Outcome::NoRound);
        assert!(answer.nodes > 1);
    }
}

/// A row left with one leg is decided at its own level all the same.
#[test]
fn one_node_for_each_station() {
    for n in [2, 3, 12, 64] {
        let state = opened(&ring(n));
        let around = (2..=n as u8).chain([1]).collect();
        assert_eq!(
            sought(&Fast, &state, u32::MAX),
            (taken(Outcome::Found, n as u32 + 1), around)
        );
        let used_up = taken(Outcome::UsedUp, n as u32);
        assert_eq!(sought(&Fast, &state, n as u32).0, used_up);
    }
}

#[test]
fn end_place_and_mark_are_not_used() {
    let mut rng = Xorshift::new(93);
    for _ in 0..100 {
        let n = rng.between(2, 12);
        let state = opened(&any_table(&mut rng, n));
        let expected = sought(&Fast, &state, 200);
        for end in [End::Open, End::Stable, End::None] {
            for (place, mark) in [(0, true), (1, false), (state.n + 1, true)] {
                let moved = WorkState {
                    place,
                    mark,
                    end,
                    ..state
                };
                assert_eq!(sought(&Fast, &moved, 200), expected);
            }
        }
    }
}

/// The given limit holds in every node: where levels of several stations say nothing, some
/// tables take more nodes.
#[test]
fn the_limit_decides_on_the_nodes() {
    let mut rng = Xorshift::new(94);
    let differs = |table: &LegTable| {
        let nodes = [1, 64].map(|limit| {
            let state = WorkState::opened(table, limit);
            sought(&Fast, &state, u32::MAX).0.nodes
        });
        nodes[0] > nodes[1]
    };
    let mut tables = (0..2_000).map(|_| any_table(&mut rng, 7));
    assert!(tables.any(|table| differs(&table)));
}

#[test]
fn refusals_write_nothing() {
    let good = opened(&LegTable::full(5));
    let refused = |number| Sought {
        number,
        outcome: Outcome::Refused,
        nodes: 0,
    };
    for calls in ALL {
        for length in [0, 1, 4, 6, 64] {
            let mut list = vec![UNWRITTEN; length];
            for (state, number) in [
                (good, card::WRONG_LIST_LENGTH),
                (WorkState { limit: 0, ..good }, card::BAD_WORK_STATE),
                (WorkState { place: 7, ..good }, card::BAD_WORK_STATE),
                (WorkState::BLANK, card::BAD_WORK_STATE),
            ] {
                for budget in [0, 1, u32::MAX] {
                    let answer = calls.first_round(&state, budget, &mut list);
                    assert_eq!(answer, refused(number));
                }
            }
            assert!(list.iter().all(|&byte| byte == UNWRITTEN));
        }
    }
}

/// The numbers at the C interface.
#[test]
fn outcomes_have_their_codes() {
    assert_eq!(Outcome::ALL.map(Outcome::code), [0, 1, 2, 3]);
}

/// No leg back to an earlier station stands after a run, so no node is entered in vain.
#[test]
fn the_full_table_of_64_stations() {
    let around = (2..=64).chain([1]).collect();
    assert_eq!(
        sought(&Fast, &opened(&LegTable::full(64)), u32::MAX),
        (taken(Outcome::Found, 65), around)
    );
}
