//! The rounds from the depot wall.

use reference::gen::{chain_among, loop_among, ring};
use reference::paper::{butterfly, NINE_LEGS, NINE_LEGS_OUTPUT};
use reference::{program, End, LegTable, WorkState};

use crate::{opened, removed_legs, ALL};

#[test]
fn program_on_the_nine_legs() {
    for calls in ALL {
        assert_eq!(program::output(calls, &NINE_LEGS), NINE_LEGS_OUTPUT);
    }
}

#[test]
fn program_on_a_table_without_round() {
    for calls in ALL {
        let text = program::output(calls, &[2, 4, 1, 0]);
        assert_eq!(text, "stations 2 legs 1\nsteps 1 removed 0 end none\n");
    }
}

#[test]
fn program_on_a_refused_sheet() {
    for calls in ALL {
        assert_eq!(program::output(calls, &[0x03, 0x0C]), "refused 3 at 1\n");
    }
}

#[test]
fn nine_legs_one_sweep() {
    for calls in ALL {
        let before = calls.open(&NINE_LEGS, 64).state;
        assert_eq!(before.legs(), 9);
        let swept = calls.sweep(before);
        assert_eq!((swept.number, swept.removed), (0, 3));
        let gone = removed_legs(&before, &swept.state);
        assert_eq!(gone, [(1, 2), (1, 3), (2, 1)]);
        assert_eq!(swept.state.end, End::Open);
    }
}

#[test]
fn nine_legs_pass_with_seed_4() {
    for calls in ALL {
        let before = calls.open(&NINE_LEGS, 64).state;
        let passed = calls.pass(before, 4);
        assert_eq!((passed.number, passed.removed), (0, 2));
        assert_eq!(removed_legs(&before, &passed.state), [(1, 2), (2, 1)]);

        let before = calls.open(&NINE_LEGS, 1).state;
        let passed = calls.pass(before, 4);
        assert_eq!((passed.number, passed.removed), (0, 0));
        assert_eq!(passed.state, before);
    }
}

#[test]
fn runs_on_short_sheets() {
    let cases: [(&[u8], u64, u32, End); 3] = [
        (&[3, 0, 0, 0], 6, 5, End::Stable),
        (&[2, 0, 0], 2, 4, End::Stable),
        (&[2, 4, 1, 0], 1, 1, End::None),
    ];
    for calls in ALL {
        for (sheet, legs, steps, end) in cases {
            let state = calls.open(sheet, 64).state;
            let ran = calls.run(state, 300_000);
            assert_eq!(state.legs(), legs);
            assert_eq!((ran.number, ran.steps, ran.removed), (0, steps, 0));
            assert_eq!(ran.state, WorkState { end, ..state });
        }
    }
}

#[test]
fn rings_lose_nothing() {
    for calls in ALL {
        for n in 2..=64 {
            let state = opened(&ring(n));
            let passed = calls.pass(state, 1);
            assert_eq!((passed.number, passed.removed), (0, 0));
            assert_eq!(passed.state, state);
        }
    }
}

#[test]
fn butterfly_has_no_round() {
    for calls in ALL {
        let state = opened(&butterfly());
        let none = WorkState {
            end: End::None,
            ..state
        };
        let passed = calls.pass(state, 1);
        assert_eq!((passed.number, passed.removed, passed.state), (0, 0, none));
        let ran = calls.run(state, 300_000);
        assert_eq!((ran.number, ran.steps, ran.removed), (0, 3, 0));
        assert_eq!(ran.state, WorkState { place: 2, ..none });
    }
}

/// What the chain step was asked for: the leg that closes a loop of four among
/// thirty goes, and the loop itself is no round.
#[test]
fn loops_of_four_among_thirty() {
    for calls in ALL {
        let before = opened(&chain_among(4, 30));
        let chained = calls.chain(before);
        assert_eq!((chained.number, chained.removed), (0, 1));
        assert_eq!(removed_legs(&before, &chained.state), [(4, 1)]);
        assert_eq!(chained.state.end, End::Open);

        let state = opened(&loop_among(4, 30));
        let none = WorkState {
            end: End::None,
            ..state
        };
        let chained = calls.chain(state);
        assert_eq!(
            (chained.number, chained.removed, chained.state),
            (0, 0, none)
        );
    }
}

#[test]
fn lists_on_all_legs_of_four() {
    for calls in ALL {
        let state = opened(&LegTable::full(4));
        assert!(calls.list_check(&state, &[2, 3, 4, 1]).yes);
        assert!(!calls.list_check(&state, &[2, 1, 4, 3]).yes);
    }
}

#[test]
fn quoted_refusals() {
    let stray = [&[0x02, 0x01, 0x04][..], &[0; 7], &[0x00]].concat();
    let cases: [(&[u8], u8, u64); 9] = [
        (&[0x03, 0x0C], 3, 1),
        (&[], 1, 0),
        (&[0x01], 2, 0),
        (&[0x41], 2, 0),
        (&[0x40], 1, 1),
        (&[0x03, 0x04, 0x00], 4, 2),
        (&[0x02, 0x00, 0x00, 0x00], 5, 3),
        (&[0x02, 0x01, 0x04], 1, 3),
        (&stray, 4, 2),
    ];
    for calls in ALL {
        for (sheet, number, place) in cases {
            let answer = calls.open(sheet, 64);
            assert_eq!((answer.number, answer.place), (number, place));
            assert_eq!(answer.state, WorkState::BLANK);
        }
    }
}
