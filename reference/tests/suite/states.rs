//! Bad states, calls by hand under every end, reports into lent buffers.

use reference::gen::{chain_among, choices_at_odds, loop_among, reversed, ring, rung_and_dead_end};
use reference::lines::station_lines;
use reference::paper::{butterfly, NINE_LEGS};
use reference::{open, Calls, End, LegTable, WorkState};

use crate::{opened, removed_legs, ALL};

fn bad_states() -> Vec<WorkState> {
    let good = opened(&ring(5));
    let with_leg = |i: usize, j: usize| {
        let mut state = good;
        state.rows[i - 1] |= 1 << (j - 1);
        state
    };
    let mut states = vec![
        WorkState::BLANK,
        with_leg(6, 1),
        with_leg(64, 1),
        with_leg(1, 6),
        with_leg(1, 64),
        with_leg(2, 2),
        with_leg(5, 5),
    ];
    let large = [1 << 32, (1 << 32) + 5, u64::MAX];
    states.extend([0, 1, 65].iter().chain(&large).map(|&n| WorkState {
        n,
        limit: 64,
        ..WorkState::BLANK
    }));
    states.extend(
        [0, 65]
            .iter()
            .chain(&large)
            .map(|&limit| WorkState { limit, ..good }),
    );
    states.extend(
        [7, 64]
            .iter()
            .chain(&large)
            .map(|&place| WorkState { place, ..good }),
    );
    states
}

#[test]
fn bad_states_are_refused_as_they_are() {
    for calls in ALL {
        for state in bad_states() {
            assert!(calls.bad(&state));
            for end in [End::Open, End::Stable, End::None] {
                assert_refused(calls, WorkState { end, ..state });
            }
        }
    }
}

/// The place after the chain step and n passes is the last one.
#[test]
fn places_up_to_the_last_are_good() {
    for calls in ALL {
        for n in 2..=64 {
            let state = opened(&ring(n));
            for place in 0..=n as u64 + 1 {
                assert!(!calls.bad(&WorkState { place, ..state }));
            }
            let place = n as u64 + 2;
            assert_refused(calls, WorkState { place, ..state });
        }
    }
}

fn assert_refused(calls: &dyn Calls, state: WorkState) {
    let swept = calls.sweep(state);
    assert_eq!((swept.number, swept.state, swept.removed), (7, state, 0));
    let chained = calls.chain(state);
    assert_eq!(
        (chained.number, chained.state, chained.removed),
        (7, state, 0)
    );
    for seed in [0, 1, u64::MAX] {
        let passed = calls.pass(state, seed);
        assert_eq!((passed.number, passed.state, passed.removed), (7, state, 0));
    }
    for budget in [0, 1, u32::MAX] {
        let ran = calls.run(state, budget);
        assert_eq!((ran.number, ran.state), (7, state));
        assert_eq!((ran.steps, ran.removed), (0, 0));
    }
    for list in [&[][..], &[2, 3, 4, 5, 1]] {
        let checked = calls.list_check(&state, list);
        assert_eq!((checked.number, checked.yes), (7, false));
    }
    for room in [0, 100] {
        let mut buffer = vec![b'.'; room];
        let reported = calls.report(&state, &mut buffer);
        assert_eq!((reported.number, reported.length), (7, 0));
        let written = calls.write(&state, &mut buffer);
        assert_eq!((written.number, written.length), (7, 0));
        assert_eq!(buffer, vec![b'.'; room]);
    }
}

#[test]
fn stray_seeds_are_refused_under_every_end() {
    for calls in ALL {
        for end in [End::Open, End::Stable, End::None] {
            let state = WorkState {
                end,
                ..opened(&ring(5))
            };
            for seed in [0, 6, 64, (1 << 32) + 1, u64::MAX] {
                let passed = calls.pass(state, seed);
                assert_eq!((passed.number, passed.state, passed.removed), (8, state, 0));
            }
        }
    }
}

/// A state in the middle of a cycle.
fn amid(table: &LegTable, end: End) -> WorkState {
    WorkState {
        place: 3,
        mark: true,
        end,
        ..opened(table)
    }
}

#[test]
fn by_hand_without_effect() {
    for calls in ALL {
        for end in [End::Open, End::Stable, End::None] {
            let state = amid(&ring(5), end);
            assert_eq!(calls.sweep(state).state, state);
            assert_eq!(calls.chain(state).state, state);
            assert_eq!(calls.pass(state, 2).state, state);
        }
    }
}

#[test]
fn by_hand_with_legs_removed() {
    let table = open(&NINE_LEGS, 64).state.table();
    for calls in ALL {
        for end in [End::Open, End::Stable] {
            let swept = calls.sweep(amid(&table, end));
            let rows = swept.state.rows;
            let expected = WorkState {
                rows,
                ..opened(&table)
            };
            assert_eq!((swept.removed, swept.state), (3, expected));

            let table = chain_among(4, 9);
            let chained = calls.chain(amid(&table, end));
            let mut expected = opened(&table);
            expected.rows[3] &= !1;
            assert_eq!((chained.removed, chained.state), (1, expected));
        }
        let ended = amid(&table, End::None);
        let swept = calls.sweep(ended);
        assert_eq!((swept.number, swept.removed, swept.state), (0, 0, ended));
        let passed = calls.pass(ended, 4);
        assert_eq!((passed.number, passed.removed, passed.state), (0, 0, ended));
        let ended = amid(&chain_among(4, 9), End::None);
        let chained = calls.chain(ended);
        assert_eq!(
            (chained.number, chained.removed, chained.state),
            (0, 0, ended)
        );
    }
}

#[test]
fn by_hand_with_verdict_none() {
    for calls in ALL {
        for end in [End::Open, End::Stable] {
            let state = amid(&butterfly(), end);
            let none = amid(&butterfly(), End::None);
            let passed = calls.pass(state, 1);
            assert_eq!((passed.removed, passed.state), (0, none));

            let state = amid(&LegTable::empty(5), end);
            let none = amid(&LegTable::empty(5), End::None);
            let swept = calls.sweep(state);
            assert_eq!((swept.removed, swept.state), (0, none));

            let state = amid(&loop_among(4, 9), end);
            let none = amid(&loop_among(4, 9), End::None);
            let chained = calls.chain(state);
            assert_eq!((chained.removed, chained.state), (0, none));
        }
    }
}

#[test]
fn legs_struck_before_none_stay_struck() {
    let before = opened(&rung_and_dead_end());
    let mut none = before;
    none.rows[1] &= !(1 << 5);
    none.end = End::None;
    for calls in ALL {
        let passed = calls.pass(before, 1);
        assert_eq!((passed.number, passed.removed, passed.state), (0, 1, none));

        let ran = calls.run(before, 10);
        let place = 2;
        assert_eq!(ran.state, WorkState { place, ..none });
        assert_eq!((ran.steps, ran.removed), (3, 1));
    }
}

#[test]
fn legs_go_together_after_both_directions() {
    let table = choices_at_odds();
    for calls in ALL {
        let before = opened(&table);
        let passed = calls.pass(before, 1);
        assert_eq!((passed.removed, passed.state.end), (2, End::Open));
        let gone = removed_legs(&before, &passed.state);
        assert_eq!(gone, [(3, 2), (4, 3)]);

        let before = opened(&reversed(&table));
        let passed = calls.pass(before, 1);
        assert_eq!((passed.removed, passed.state.end), (2, End::Open));
        let gone = removed_legs(&before, &passed.state);
        assert_eq!(gone, [(2, 3), (3, 4)]);
    }
}

/// Only the table at the start of a sweep decides on none.
#[test]
fn a_sweep_may_empty_rows_without_none() {
    let table = LegTable::from_legs(3, [(1, 3), (2, 3), (3, 1), (3, 2)]);
    for calls in ALL {
        let first = calls.sweep(opened(&table));
        assert_eq!((first.removed, first.state.end), (4, End::Open));
        let second = calls.sweep(first.state);
        assert_eq!((second.removed, second.state.end), (0, End::None));
    }
}

#[test]
fn reports_fill_just_their_text() {
    for calls in ALL {
        for n in [2, 9, 10, 11, 64] {
            for table in [LegTable::full(n), ring(n), LegTable::empty(n)] {
                let text = station_lines(&table);
                for room in [0, 1, 30] {
                    let mut buffer = vec![b'.'; text.len() + room];
                    let reported = calls.report(&opened(&table), &mut buffer);
                    assert_eq!((reported.number, reported.length), (0, text.len() as u64));
                    assert_eq!(&buffer[..text.len()], text.as_bytes());
                    assert!(buffer[text.len()..].iter().all(|&byte| byte == b'.'));
                }
                let mut buffer = vec![b'.'; text.len() - 1];
                let reported = calls.report(&opened(&table), &mut buffer);
                assert_eq!((reported.number, reported.length), (10, 0));
                assert!(buffer.iter().all(|&byte| byte == b'.'));
            }
        }
    }
}

#[test]
fn station_lines_by_hand() {
    let mut table = ring(10);
    table.add(1, 10);
    table.strike(&[(9, 10)]);
    let text = "1: 2 10\n2: 3\n3: 4\n4: 5\n5: 6\n6: 7\n7: 8\n8: 9\n9:\n10: 1\n";
    assert_eq!(station_lines(&table), text);
}
