//! Cut steps of two-way networks (W-209).

mod ways;

use reference::compare::{watch_sheet, Counts};
use reference::cut::laws::{drives_all, fault, fault_beside_rounds, fault_beside_splits};
use reference::cut::laws::{CutStep, Said};
use reference::cut::roads;
use reference::gen::must::{common, roads_of_round, some_roads, stray, together, NO_ROADS};
use reference::gen::{all_two_way, any_two_way, two_way, Xorshift};
use reference::rounds::rounds;
use reference::state::Rows;
use reference::{card, Calls, End, LegTable, Plain, Telling, WorkState};

use crate::{opened, ALL};

fn step(calls: &dyn Calls, before: WorkState, given: Rows) -> CutStep {
    let after = calls.cut(before, &given);
    CutStep {
        before,
        given,
        after,
    }
}

/// Holds a cut step to the splits of its table and to all its rounds.
fn hold(step: &CutStep, all: &[Vec<usize>]) {
    let mut class = all.to_vec();
    class.retain(|round| drives_all(round, &step.given));
    assert_eq!(fault(step), None, "{step:?}");
    assert_eq!(fault_beside_rounds(step, &class), None, "{step:?}");
    assert_eq!(fault_beside_splits(step), None, "{step:?}");
}

/// Every part of some roads.
fn all_parts(table: &LegTable) -> impl Iterator<Item = Rows> {
    let all: Vec<_> = roads(table).into_iter().collect();
    let n = table.n();
    (0..1_u32 << all.len()).map(move |code| {
        let given = all.iter().enumerate();
        let given = given.filter(|(at, _)| code >> at & 1 == 1);
        two_way(n, &given.map(|(_, &road)| road).collect::<Vec<_>>()).rows()
    })
}

/// Every two-way table of up to 5 stations with every must-drive table.
#[test]
fn every_cut_step_up_to_five() {
    let (mut steps, mut none, mut with_round) = (0, 0, 0);
    for table in (3..=5).flat_map(all_two_way) {
        let all = rounds(&table);
        for must in all_parts(&table) {
            let step = step(&Plain, opened(&table), must);
            hold(&step, &all);
            steps += 1;
            none += u32::from(step.gives_none());
            with_round += u32::from(all.iter().any(|round| drives_all(round, &must)));
        }
    }
    assert_eq!(steps, 27 + 729 + 59_049);
    assert!(none > 30_000 && with_round > 5_000, "{none} {with_round}");
}

/// A two-way table at any place, with any mark and end.
fn any_state(rng: &mut Xorshift, most: usize) -> WorkState {
    let n = rng.between(3, most);
    let (table, _) = any_two_way(rng, n);
    WorkState {
        limit: rng.pick(&[1, 2, 64]),
        place: rng.below(n + 2) as u64,
        mark: rng.percent(50),
        end: rng.pick(&[End::Open, End::Open, End::Stable, End::None]),
        ..opened(&table)
    }
}

/// Roads of a round of the table or any, mostly sound ones.
fn any_must(rng: &mut Xorshift, state: &WorkState, all: &[Vec<usize>]) -> Rows {
    let chance = rng.pick(&[0, 20, 50, 100]);
    let must = match rng.below(3) {
        0 => some_roads(rng, &state.rows, chance),
        _ if all.is_empty() => NO_ROADS,
        _ => {
            let round = roads_of_round(&all[rng.below(all.len())]);
            some_roads(rng, &round, chance)
        }
    };
    match rng.below(6) {
        0 => stray(rng, state, &must),
        _ => must,
    }
}

#[test]
fn made_up_cut_steps_up_to_eight() {
    let mut rng = Xorshift::new(93);
    for _ in 0..6_000 {
        let state = any_state(&mut rng, 8);
        let all = rounds(&state.table());
        let must = any_must(&mut rng, &state, &all);
        for calls in ALL {
            hold(&step(calls, state, must), &all);
        }
    }
}

/// Lists of calls with cut steps among them: the legs of the rounds that drive every road
/// given to a step that was not refused stand, and no leg comes back.
#[test]
fn lists_of_calls_up_to_seven() {
    let mut rng = Xorshift::new(94);
    let (mut narrowed, mut none, mut removed) = (0, 0, 0);
    for _ in 0..4_000 {
        let n = rng.between(3, 7);
        let (table, _) = any_two_way(&mut rng, n);
        let mut class = rounds(&table);
        let mut state = WorkState::opened(&table, rng.pick(&[1, 2, 64]));
        let mut must = NO_ROADS;
        for _ in 0..8 {
            let before = state;
            state = match rng.below(8) {
                0 => Plain.sweep(state).state,
                1 => Plain.chain(state).state,
                2 => Plain.pass(state, rng.between(1, n) as u64).state,
                3 => Plain.run(state, rng.below(2 * n) as u32).state,
                _ => {
                    let kept = common(&must, &state.rows);
                    let given = together(&kept, &any_must(&mut rng, &state, &class));
                    let step = step(&Plain, state, given);
                    if step.taken() {
                        class.retain(|round| drives_all(round, &given));
                        narrowed += u32::from(!class.is_empty() && given != NO_ROADS);
                        must = step.after.must;
                    }
                    removed += u32::from(step.after.removed > 0);
                    none += u32::from(step.gives_none());
                    step.after.state
                }
            };
            assert_eq!(common(&state.rows, &before.rows), state.rows);
            assert!(class.is_empty() || state.end != End::None);
            for (row, round) in class.iter().flat_map(|round| state.rows.iter().zip(round)) {
                assert!(row >> (round - 1) & 1 == 1);
            }
        }
    }
    assert!(narrowed > 2_000 && none > 500 && removed > 200);
}

/// Two triangles, joined by these roads.
fn triangles(joined: &[(usize, usize)]) -> WorkState {
    let inside = [(1, 2), (2, 3), (1, 3), (4, 5), (5, 6), (4, 6)];
    opened(&two_way(6, &[&inside, joined].concat()))
}

fn rows(roads: &[(usize, usize)]) -> Rows {
    two_way(64, roads).rows()
}

#[test]
fn triangles_by_hand() {
    let three = triangles(&[(1, 4), (2, 5), (3, 6)]);
    for calls in ALL {
        for (joined, given) in [(&[][..], &[][..]), (&[(1, 4)], &[])] {
            let step = step(calls, triangles(joined), rows(given));
            assert!(step.gives_none());
        }
        let two = step(calls, triangles(&[(1, 4), (2, 5)]), NO_ROADS);
        // Stations 3 and 6 are cut off by two roads as well.
        let forced = rows(&[(1, 4), (2, 5), (1, 3), (2, 3), (4, 6), (5, 6)]);
        assert_eq!((two.after.must, two.after.state), (forced, two.before));

        let one = step(calls, three, rows(&[(1, 4)]));
        assert!(one.changes_nothing() && one.taken());
        let third = step(calls, three, rows(&[(1, 4), (2, 5)]));
        assert_eq!((third.after.removed, third.must_grew()), (2, false));
        assert!(!third.after.state.table().has(3, 6));
        assert!(step(calls, three, rows(&[(1, 4), (2, 5), (3, 6)])).gives_none());
    }
}

/// Station 4 has two roads, so that 1–4 becomes must-drive; at station 1 it would go
/// beside the two others.
#[test]
fn one_road_would_do_both() {
    let table = two_way(5, &[(1, 4), (4, 5), (1, 2), (1, 3), (2, 3), (2, 5), (3, 5)]);
    let given = rows(&[(1, 2), (1, 3)]);
    for calls in ALL {
        let step = step(calls, opened(&table), given);
        assert!(step.gives_none());
        let said = Said::by_splits(&step);
        assert!(said.both() && !said.none());
        assert_eq!(step.after.state.rows, table.rows());
        assert_eq!(step.after.must, given);
    }
}

/// 7, then 11, then 12; the two last also where the end is none.
#[test]
fn checks_in_their_order() {
    let ring = opened(&two_way(4, &[(1, 2), (2, 3), (3, 4), (1, 4)]));
    let mut one_way = ring;
    one_way.rows[0] &= !2;
    let two = opened(&LegTable::full(2));
    let bad = WorkState {
        limit: 0,
        ..one_way
    };
    let mut half = NO_ROADS;
    half[0] = 2;
    let stray = [rows(&[(1, 3)]), rows(&[(4, 5)]), rows(&[(63, 64)]), half];
    let own = std::array::from_fn(|at| u64::from(at == 2) << 2);
    for calls in ALL {
        for must in stray.into_iter().chain([own]) {
            for end in [End::Open, End::Stable, End::None] {
                let number = |state| {
                    let step = step(calls, WorkState { end, ..state }, must);
                    assert!(step.changes_nothing());
                    step.after.number
                };
                let numbers = [bad, one_way, two, ring].map(number);
                let due = [
                    card::BAD_WORK_STATE,
                    card::NOT_TWO_WAY,
                    card::NOT_TWO_WAY,
                    card::STRAY_ROAD,
                ];
                assert_eq!(numbers, due);
            }
        }
    }
}

/// Each of the counts is asked for.
#[test]
fn a_count_that_is_0_is_told() {
    let mut sum = Counts::default();
    for index in 0..400 {
        let counts = watch_sheet(&Telling, 7, index).unwrap_or_else(|found| panic!("{found}"));
        sum.add(&counts);
    }
    assert!(sum.cuts.complete(), "{:?}", sum.cuts);
    for at in 0..sum.cuts.each_mut().len() {
        let mut without = sum.cuts.clone();
        *without.each_mut()[at] = 0;
        assert!(!without.complete());
    }
}
