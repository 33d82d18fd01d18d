//! Previews of all implementations are held to their steps, to the rounds of their tables and
//! to each other.

use reference::compare::{watch_sheet, Counts};
use reference::gen::{all_tables, any_state, any_table, from_next, ring_of_rungs, Xorshift};
use reference::preview::laws::{fault, fault_beside_first, fault_beside_rounds};
use reference::preview::laws::{fault_beside_step, fault_on_stable, Previewed};
use reference::rounds::rounds;
use reference::stable::stray_seeds;
use reference::state::last_place;
use reference::table::Leg;
use reference::{card, open, paper, preview, Calls, End, Fast, HandStep, LegTable};
use reference::{Plain, Telling, WorkState};

use crate::{opened, ALL, FAST};

const ENDS: [End; 3] = [End::Open, End::Stable, End::None];

fn previewed(calls: &dyn Calls, before: WorkState, step: HandStep) -> Previewed {
    Previewed {
        before,
        step,
        preview: calls.preview(before, step),
    }
}

/// What is said of previews, for one step on one state by some calls.
fn assert_preview(calls: &dyn Calls, state: WorkState, step: HandStep) -> Previewed {
    let first = previewed(calls, state, step);
    let second = previewed(calls, state, step);
    let made = step.make(calls, state);
    let faults = [
        fault(&first),
        fault_beside_first(&second, &first),
        fault_beside_step(&first, &made),
    ];
    assert_eq!(faults, [None; 3], "{step} on {state}");
    first
}

fn every_step(n: u64) -> impl Iterator<Item = HandStep> {
    let stray = stray_seeds(n).map(HandStep::Pass);
    HandStep::all(n).chain(stray)
}

/// The same answers by all calls; no round drives what they show.
fn assert_alike(state: WorkState, rounds: &[Vec<usize>]) {
    for step in every_step(state.n) {
        let answers = ALL.map(|calls| assert_preview(calls, state, step));
        assert!(answers.iter().all(|answer| *answer == answers[0]));
        assert_eq!(fault_beside_rounds(&answers[0], rounds), None);
    }
}

/// At every place with both marks, all ends and two limits.
#[test]
fn all_tables_of_two_and_three_stations() {
    for table in (2..=3).flat_map(all_tables) {
        let rounds = rounds(&table);
        let n = table.n() as u64;
        for place in 0..=last_place(n) {
            for (mark, limit) in [(false, 64), (true, 64), (true, 1)] {
                for end in ENDS {
                    let state = WorkState {
                        place,
                        mark,
                        end,
                        ..WorkState::opened(&table, limit)
                    };
                    assert_alike(state, &rounds);
                }
            }
        }
    }
}

#[test]
fn some_tables_of_four_stations() {
    let mut rng = Xorshift::new(81);
    for table in all_tables(4).filter(|_| rng.percent(15)) {
        let rounds = rounds(&table);
        for end in ENDS {
            let opened = opened(&table);
            assert_alike(WorkState { end, ..opened }, &rounds);
        }
    }
}

/// At any place, with any mark, end and limit.
#[test]
fn made_up_tables() {
    let mut rng = Xorshift::new(82);
    for n in 5..=8 {
        for _ in 0..60 {
            let state = any_state(&mut rng, n);
            assert_alike(state, &rounds(&state.table()));
        }
    }
    for n in [12, 24, 63, 64] {
        for _ in 0..12 {
            let state = any_state(&mut rng, n);
            for step in every_step(state.n) {
                let [fast, telling] = FAST.map(|calls| assert_preview(calls, state, step));
                assert_eq!(fast, telling);
                if rng.percent(10) {
                    assert_eq!(assert_preview(&Plain, state, step), fast);
                }
            }
        }
    }
}

/// The end that was given comes back from a refusal, whatever it is.
#[test]
fn refusals_show_nothing() {
    let good = opened(&paper::petersen());
    for end in ENDS {
        let good = WorkState { end, ..good };
        for calls in ALL {
            for seed in stray_seeds(good.n) {
                let stray = assert_preview(calls, good, HandStep::Pass(seed)).preview;
                assert_eq!(stray.number, card::STRAY_SEED);
                assert_eq!((stray.legs, stray.end), ([0; 64], end));
            }
            let bad = WorkState { limit: 0, ..good };
            for step in every_step(good.n) {
                let refused = assert_preview(calls, bad, step).preview;
                assert_eq!(refused.number, card::BAD_WORK_STATE);
                assert_eq!((refused.legs, refused.end), ([0; 64], end));
            }
        }
    }
}

fn shown(state: WorkState, step: HandStep) -> (Vec<Leg>, End) {
    let preview = preview(state, step);
    assert_eq!((preview.number, preview.state), (card::TAKEN, state));
    let n = state.n as usize;
    (LegTable::from_rows(n, &preview.legs).legs(), preview.end)
}

#[test]
fn previews_of_named_tables() {
    let nine = open(&paper::NINE_LEGS, 64).state;
    let swept = vec![(1, 2), (1, 3), (2, 1)];
    assert_eq!(shown(nine, HandStep::Sweep), (swept.clone(), End::Open));
    let end = End::Stable;
    let said_stable = WorkState { end, ..nine };
    assert_eq!(shown(said_stable, HandStep::Sweep), (swept, End::Open));
    assert_eq!(shown(said_stable, HandStep::Chain), (vec![], End::Stable));
    let end = End::None;
    let ended = WorkState { end, ..nine };
    assert_eq!(shown(ended, HandStep::Sweep), (vec![], End::None));
    let butterfly = opened(&paper::butterfly());
    assert_eq!(shown(butterfly, HandStep::Pass(1)), (vec![], End::None));
    // Around station 9 each rung is a level, and all of them go.
    let rungs: Vec<Leg> = (2..=16)
        .map(|i| (i, 18 - i))
        .filter(|(i, j)| i != j)
        .collect();
    let ring = opened(&ring_of_rungs(16));
    assert_eq!(shown(ring, HandStep::Pass(9)), (rungs, End::Open));
    assert_eq!(shown(ring, HandStep::Pass(8)), (vec![], End::Open));
}

/// Around station 1 the level of 3 and 4 removes the leg from 4 to 3. The next one, of 5
/// alone, has stations on both sides: none.
#[test]
fn none_is_shown_with_the_legs_of_earlier_levels() {
    let table = from_next(&[&[3], &[], &[5], &[1, 3], &[2, 4]]);
    for end in [End::Open, End::Stable] {
        let state = WorkState {
            place: 4,
            mark: true,
            end,
            ..opened(&table)
        };
        assert_eq!(shown(state, HandStep::Pass(1)), (vec![(4, 3)], End::None));
        let narrow = WorkState { limit: 1, ..state };
        assert_eq!(shown(narrow, HandStep::Pass(1)), (vec![], End::None));
        let end = End::None;
        let ended = WorkState { end, ..state };
        assert_eq!(shown(ended, HandStep::Pass(1)), (vec![], End::None));
    }
}

#[test]
fn nothing_is_shown_on_stable_states() {
    let mut rng = Xorshift::new(83);
    let mut stable = 0;
    for _ in 0..400 {
        let n = rng.between(2, 24);
        let limit = rng.pick(&[1, 2, 64]);
        let state = WorkState::opened(&any_table(&mut rng, n), limit);
        let state = Fast.run(state, u32::MAX).state;
        if state.end != End::Stable {
            continue;
        }
        stable += 1;
        let few = if n <= 8 { &ALL[..] } else { &FAST[..] };
        for step in every_step(state.n) {
            for calls in few {
                let previewed = assert_preview(*calls, state, step);
                assert_eq!(fault_on_stable(&previewed), None);
            }
        }
    }
    assert!(stable > 100, "{stable}");
}

/// Each of the counts is asked for.
#[test]
fn a_count_that_is_0_is_told() {
    let mut sum = Counts::default();
    for index in 0..400 {
        let counts = watch_sheet(&Telling, 7, index).unwrap_or_else(|found| panic!("{found}"));
        sum.add(&counts);
    }
    assert!(sum.previews.complete(), "{:?}", sum.previews);
    for at in 0..sum.previews.each_mut().len() {
        let mut without = sum.previews.clone();
        *without.each_mut()[at] = 0;
        assert!(!without.complete());
    }
}
