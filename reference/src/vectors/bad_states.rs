//! Work states that break one clause each, under every call.

use super::WIDE_NUMBERS;
use crate::gen::ring;
use crate::script::Script;
use crate::state::{last_place, End, WorkState};
use crate::table::LegTable;

pub fn add(script: &mut Script) {
    every_call(script);
    for state in bad_states() {
        script.work(&state);
        every_call(script);
    }
    good_borders(script);
}

/// Seeds, lists and buffers of all kinds: the state is checked before them.
fn every_call(script: &mut Script) {
    script.sweep();
    script.chain();
    for seed in [1, 0, 6, u64::MAX] {
        script.pass(seed);
    }
    script.run(0);
    script.run(10);
    script.list(&[]);
    script.list(&[2, 3, 4, 5, 1]);
    script.report(0);
    script.report(60);
}

fn good() -> WorkState {
    WorkState::opened(&ring(5), 64)
}

pub fn bad_states() -> Vec<WorkState> {
    let mut states = bad_counts();
    states.extend(stray_legs());
    for limit in [0, 65].into_iter().chain(WIDE_NUMBERS) {
        states.push(WorkState { limit, ..good() });
    }
    for place in [7, 64].into_iter().chain(WIDE_NUMBERS) {
        states.push(WorkState { place, ..good() });
    }
    for n in [2, 64] {
        let place = last_place(n as u64) + 1;
        states.push(WorkState {
            place,
            ..WorkState::opened(&ring(n), 64)
        });
    }
    // An ended state is bad for the same reasons.
    for end in [End::Stable, End::None] {
        let place = 7;
        states.push(WorkState {
            end,
            place,
            ..good()
        });
    }
    states
}

fn bad_counts() -> Vec<WorkState> {
    let empty = |n| WorkState {
        n,
        limit: 64,
        ..WorkState::BLANK
    };
    let mut states: Vec<WorkState> = [0, 1, 65, 261, (1 << 32) + 5, u64::MAX]
        .into_iter()
        .map(empty)
        .collect();
    states.push(WorkState {
        n: (1 << 32) + 5,
        ..good()
    });
    states.push(WorkState {
        n: 65,
        ..WorkState::opened(&ring(64), 64)
    });
    states
}

/// A word beyond n, a bit beyond n, a leg from a station to itself.
fn stray_legs() -> Vec<WorkState> {
    let with_leg = |base: WorkState, i: usize, j: usize| {
        let mut state = base;
        state.rows[i - 1] |= 1 << (j - 1);
        state
    };
    let of_64 = WorkState::opened(&LegTable::empty(64), 64);
    vec![
        with_leg(good(), 6, 1),
        with_leg(good(), 64, 2),
        with_leg(good(), 1, 6),
        with_leg(good(), 5, 64),
        with_leg(good(), 1, 1),
        with_leg(good(), 5, 5),
        with_leg(of_64, 1, 1),
        with_leg(of_64, 64, 64),
    ]
}

/// The outermost values that are still good.
fn good_borders(script: &mut Script) {
    for n in [2, 5] {
        for limit in [1, 64] {
            for place in [0, last_place(n as u64)] {
                let table = LegTable::full(n);
                script.work(&WorkState {
                    place,
                    ..WorkState::opened(&table, limit)
                });
                every_call(script);
            }
        }
    }
    let place = last_place(64);
    script.work(&WorkState {
        place,
        ..WorkState::opened(&ring(64), 64)
    });
    every_call(script);
}
