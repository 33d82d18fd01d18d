//! The vectors of cut steps, by the bytes of their script and the text of its answers alone:
//! legs only go and must-drive roads only come, every round that drives the given roads
//! stands after the step and drives the new ones too, and none is given only where there is
//! no such round.

mod splits;
mod steps;

use reference::state::Rows;
use reference::{bad, End, WorkState};

use self::splits::{all_rounds, common, count, expected, within, without, MOST_STATIONS};
use self::steps::{rows, Row, Step};

/// Does each leg stand both ways?
fn both_ways(rows: &Rows) -> bool {
    let stands = |i: usize, k: usize| rows[i] >> k & 1 == 1;
    (0..64).all(|i| (0..64).all(|k| stands(i, k) == stands(k, i)))
}

/// The number of the first check that fails.
fn number(state: &WorkState, given: &Rows) -> u32 {
    if bad(state) {
        7
    } else if state.n < 3 || !both_ways(&state.rows) {
        11
    } else if !both_ways(given) || !within(given, &state.rows) {
        12
    } else {
        0
    }
}

/// The state that the hand rules make of what a taken step says.
fn by_hand(step: &Step) -> WorkState {
    let Step { before, after, .. } = step;
    if after.end == End::None {
        let end = End::None;
        WorkState { end, ..*before }
    } else if step.removed > 0 {
        WorkState {
            rows: after.rows,
            place: 0,
            mark: false,
            end: End::Open,
            ..*before
        }
    } else {
        *before
    }
}

/// Is the answer the one that every split gives?
fn fits_splits(step: &Step) -> bool {
    let Step { before, after, .. } = step;
    if before.n > MOST_STATIONS {
        return true;
    }
    match expected(before, &step.given) {
        Some(tables) => after.end != End::None && (after.rows, step.must) == tables,
        None => after.end == End::None && !step.forced(),
    }
}

/// Every round that drives the given roads stands and drives the new ones; with none there
/// is no such round.
fn keeps_rounds(step: &Step) -> bool {
    if step.before.n > 8 {
        return true;
    }
    let mut rounds = all_rounds(&step.before);
    rounds.retain(|(_, roads)| within(&step.given, roads));
    match step.after.end {
        End::None => rounds.is_empty(),
        _ => rounds.iter().all(|(legs, roads)| {
            let stands = within(legs, &step.after.rows);
            stands && within(&step.must, roads)
        }),
    }
}

/// What a step answers otherwise than its state and its must-drive roads allow.
fn fault(step: &Step) -> Option<&'static str> {
    let Step { before, after, .. } = step;
    if step.number != number(before, &step.given) {
        return Some("number");
    }
    if !step.taken() || before.end == End::None {
        let still = !step.changed() && step.removed == 0;
        return (!still).then_some("refused or ended");
    }
    let gone = count(&without(&before.rows, &after.rows));
    let checks = [
        ("legs", within(&after.rows, &before.rows)),
        ("must-drive roads", within(&step.given, &step.must)),
        ("standing", within(&step.must, &after.rows)),
        ("two ways", both_ways(&after.rows) && both_ways(&step.must)),
        ("removals", u64::from(gone) == step.removed),
        ("state", *after == by_hand(step)),
        ("rounds", keeps_rounds(step)),
        ("splits", fits_splits(step)),
    ];
    let fault = checks.iter().find(|(_, holds)| !holds);
    fault.map(|&(name, _)| name)
}

fn all_steps() -> Vec<Step> {
    rows().iter().flat_map(Row::steps).cloned().collect()
}

#[test]
fn steps_fit_their_states_and_roads() {
    for step in all_steps() {
        assert_eq!(fault(&step), None, "{step:?}");
    }
}

/// Of all calls from a state that is made: no leg comes back, the rounds stand that drive
/// every road given to steps that were taken, and while there is one the end is not none.
#[test]
fn rounds_that_drive_every_given_road_survive() {
    for row in rows() {
        let small = (3..=8).contains(&row.made.n) && !bad(&row.made);
        if !small || row.made.end == End::None {
            continue;
        }
        let mut rounds = all_rounds(&row.made);
        let mut before = row.made;
        for call in &row.calls {
            if let Some(step) = call.step.as_ref().filter(|step| step.taken()) {
                rounds.retain(|(_, roads)| within(&step.given, roads));
            }
            assert!(within(&call.after.rows, &before.rows));
            assert!(rounds
                .iter()
                .all(|(legs, _)| within(legs, &call.after.rows)));
            assert!(rounds.is_empty() || call.after.end != End::None);
            before = call.after;
        }
    }
}

#[test]
fn the_round_of_the_given_roads_is_confirmed_after_each_call() {
    let all = rows();
    let answers = all.iter().flat_map(|row| &row.calls);
    let mut lists = answers.filter(|call| call.answer.starts_with("list "));
    assert!(lists.all(|call| call.answer == "list 0 yes"));
}

type Change = fn(&mut Step);

/// Of a step that forces roads, drops others and leaves some more.
#[test]
fn a_change_of_any_part_is_found() {
    let fits = |step: &&Step| {
        let some = step.forced() && step.must != step.after.rows;
        some && step.removed > 0 && step.before.n <= 8
    };
    let all = all_steps();
    let step = all.iter().find(fits).expect("a step");
    let changes: [(&str, Change); 12] = [
        ("number", |step| step.number = 12),
        ("number", |step| step.before.limit = 0),
        ("number", |step| step.given[0] |= 1),
        ("refused or ended", |step| step.before.end = End::None),
        ("legs", |step| step.after.rows[0] |= 1),
        ("must-drive roads", |step| {
            step.given = common(&step.before.rows, &step.after.rows);
        }),
        ("standing", |step| step.must = step.before.rows),
        ("removals", |step| step.removed += 1),
        ("state", |step| step.after.mark = true),
        ("state", |step| step.after.end = End::Stable),
        ("splits", |step| step.must = step.given),
        ("rounds", |step| step.must = step.after.rows),
    ];
    for (part, change) in changes {
        let mut changed = step.clone();
        change(&mut changed);
        assert_eq!(fault(&changed), Some(part), "{changed:?}");
    }
}

#[test]
fn every_kind_of_step_is_among_the_vectors() {
    let all = all_steps();
    let any = |kind: &dyn Fn(&Step) -> bool| assert!(all.iter().any(kind));
    for n in (3..=10).chain([12, 16, 64]) {
        any(&|step| step.taken() && step.before.n == n && step.changed());
    }
    for end in [End::Open, End::Stable, End::None] {
        let at = |step: &Step| step.before.end == end && step.before.mark && step.before.place > 0;
        for number in [0, 11, 12] {
            any(&|step| step.number == number && at(step));
        }
        if end != End::None {
            any(&|step| at(step) && step.removed > 0);
            any(&|step| at(step) && step.after.end == End::None);
            any(&|step| at(step) && step.forced() && step.after == step.before);
        }
    }
    any(&|step| step.number == 7);
    any(&|step| step.forced() && step.removed > 0);
    // Nothing to do, though there are must-drive roads.
    any(&|step| step.taken() && !step.changed() && count(&step.given) > 0);
}

/// The roads that a step forces count from the next one on, and what goes leaves new cuts
/// to it.
#[test]
fn the_next_step_goes_on() {
    let all = rows();
    let pairs = |fits: &dyn Fn(&Step, &Step) -> bool| {
        let steps: Vec<Vec<&Step>> = all.iter().map(|row| row.steps().collect()).collect();
        let mut pairs = steps.iter().flat_map(|steps| steps.windows(2));
        assert!(pairs.any(|pair| pair[1].given == pair[0].must && fits(pair[0], pair[1])));
    };
    pairs(&|one, next| one.removed == 0 && next.removed > 0);
    pairs(&|one, next| one.removed > 0 && next.forced());
    pairs(&|one, next| one.forced() && next.after.end == End::None);
    pairs(&|one, next| one.changed() && next.taken() && !next.changed());
}
