//! Runs in turns: from the same state, turns whose budgets have the same sum give the
//! same state, and their steps and removals add up.
//!
//! A group is one run from a state and then, from that state again, each of some rows
//! of turns. A row has at least two of them.

use crate::fast;
use crate::gen::{band, cut_at, from_next, long_runs, plant_round, Family, Xorshift};
use crate::paper;
use crate::program::LIMIT;
use crate::script::Script;
use crate::sheet::open;
use crate::state::{cycle, last_place, End, WorkState};
use crate::table::LegTable;

pub fn add(script: &mut Script) {
    // Five stations, 28 steps.
    let long = at_rest(&long_runs()[3]);
    let none = at_rest(&none_in_second_cycle());
    for state in [nine_legs(), long, none] {
        every_cut(script, &state);
    }
    for state in [nine_legs(), none] {
        largest_budget(script, &state);
    }
    marked_states(script, &long);
    most_stations(script);
    budgets_of_zero(script);
    ended_states(script);
    bad_states(script);
    random_turns(script);
}

/// One row of turns.
type Turns = Vec<u32>;

fn group(script: &mut Script, state: &WorkState, budget: u32, rows: &[Turns]) {
    let whole = vec![budget];
    for turns in [&whole].into_iter().chain(rows) {
        assert_eq!(turns.iter().sum::<u32>(), budget);
        script.work(state);
        for &turn in turns {
            script.run(turn);
        }
    }
}

fn nine_legs() -> WorkState {
    open(&paper::NINE_LEGS, LIMIT).state
}

fn at_rest(table: &LegTable) -> WorkState {
    WorkState::opened(table, LIMIT)
}

/// Its run strikes 16 of 23 legs and ends with none at step 17; a cycle has 9.
fn none_in_second_cycle() -> LegTable {
    from_next(&[
        &[2, 3, 4],
        &[1, 3, 4, 7],
        &[1, 4],
        &[1, 2, 3, 5, 7],
        &[1, 3, 6],
        &[1, 2, 4, 5],
        &[2, 4],
    ])
}

/// The steps to the end. The plain run of many stations takes long.
fn steps(state: &WorkState) -> u32 {
    fast::run(*state, u32::MAX).steps
}

fn cut(budget: u32, at: u32) -> Turns {
    cut_at(budget, vec![at])
}

/// Turns of the same length, and what is left of the budget, also where it is 0.
fn turns_of(length: u32, budget: u32) -> Turns {
    let mut turns = vec![length; (budget / length) as usize];
    turns.push(budget % length);
    turns
}

/// Two turns at every cut; turns of one step, one more than there are; turns of 0 before,
/// between and after others.
fn every_cut(script: &mut Script, state: &WorkState) {
    let budget = steps(state) + 1;
    let mut rows: Vec<Turns> = (0..=budget).map(|at| cut(budget, at)).collect();
    rows.push(turns_of(1, budget));
    rows.push(vec![0, budget / 2, 0, 0, budget - budget / 2, 0]);
    group(script, state, budget, &rows);
}

/// The first turn ends the run or leaves its last steps to the second one.
fn largest_budget(script: &mut Script, state: &WorkState) {
    let steps = steps(state);
    let mut rows = Vec::new();
    for k in [1, steps - 1, steps, 1 << 31] {
        rows.push(cut(u32::MAX, u32::MAX - k));
        rows.push(cut(u32::MAX, k));
    }
    group(script, state, u32::MAX, &rows);
}

/// Mid-cycle with the mark set: as a run leaves it, and on the table at its end, where
/// only the mark asks for another cycle. Cut at the end of the cycle, one step before and
/// one step after.
fn marked_states(script: &mut Script, opened: &WorkState) {
    let left = (1..steps(opened)).map(|budget| fast::run(*opened, budget).state);
    let mut states: Vec<WorkState> = left.filter(|state| state.mark).step_by(4).collect();
    let ended = fast::run(*opened, u32::MAX).state;
    for place in [0, last_place(opened.n)] {
        states.push(WorkState {
            place,
            mark: true,
            end: End::Open,
            ..ended
        });
    }
    for state in states {
        let budget = steps(&state) + 1;
        let end = (last_place(state.n) + 1 - state.place) as u32;
        let rows = [end - 1, end, end + 1].map(|at| cut(budget, at));
        group(script, &state, budget, &rows);
    }
}

/// In turns of a whole cycle and of a prime length: a run that stays open, and one to
/// its end.
fn most_stations(script: &mut Script) {
    let ring = Family::RingWithChords.table(&mut Xorshift::new(1401), 64);
    let ring = at_rest(&ring);
    let cycle = cycle(64);
    for (state, budget) in [(at_rest(&band(64)), 4 * cycle), (ring, steps(&ring))] {
        let rows = [cycle, 37].map(|length| turns_of(length, budget));
        group(script, &state, budget, &rows);
    }
}

fn budgets_of_zero(script: &mut Script) {
    let opened = nine_legs();
    for state in [opened, fast::run(opened, 5).state] {
        group(script, &state, 0, &[vec![0, 0], vec![0, 0, 0]]);
    }
}

/// No turn does anything.
fn ended_states(script: &mut Script) {
    for end in [End::Stable, End::None] {
        for (place, mark) in [(0, false), (3, true)] {
            let state = WorkState {
                end,
                place,
                mark,
                ..nine_legs()
            };
            group(script, &state, 7, &[vec![3, 4], vec![0, 7, 0]]);
        }
    }
}

/// The count, the limit, the place, a row, a bit or a station's own bit is bad, the place
/// also on ended states. Each turn is refused, that of 0 too.
fn bad_states(script: &mut Script) {
    let good = nine_legs();
    let with_leg = |i: usize, j: usize| {
        let mut state = good;
        state.rows[i - 1] |= 1 << (j - 1);
        state
    };
    let states = [
        WorkState::BLANK,
        WorkState { n: 1, ..good },
        WorkState { n: 65, ..good },
        WorkState { limit: 0, ..good },
        WorkState { limit: 65, ..good },
        WorkState { place: 8, ..good },
        with_leg(7, 1),
        with_leg(1, 7),
        with_leg(1, 1),
    ];
    let ended = [End::Stable, End::None].map(|end| WorkState { end, ..states[5] });
    for state in states.iter().chain(&ended) {
        group(script, state, 5, &[vec![0, 2, 3]]);
    }
}

/// A budget in parts at random; a part may be 0.
fn parts(rng: &mut Xorshift, budget: u32) -> Turns {
    let count = rng.between(1, 4);
    let cuts = (0..count).map(|_| rng.below(budget as usize + 1) as u32);
    cut_at(budget, cuts.collect())
}

/// A table with a round, at any place with any mark, whose run strikes legs after its
/// first cycle has ended.
fn drawn(rng: &mut Xorshift) -> WorkState {
    loop {
        let n = rng.between(4, 12);
        let mut table = rng.pick(&Family::WITH_STRIKING_LEVELS).table(rng, n);
        plant_round(rng, &mut table);
        let state = WorkState {
            place: rng.below(n + 2) as u64,
            mark: rng.percent(50),
            ..WorkState::opened(&table, rng.pick(&[1, 2, LIMIT]))
        };
        let first = last_place(state.n) - state.place + 1;
        let begun = fast::run(state, first as u32).state;
        if fast::run(begun, u32::MAX).removed > 0 {
            return state;
        }
    }
}

/// Up to the end or not.
fn random_turns(script: &mut Script) {
    let mut rng = Xorshift::new(1402);
    for _ in 0..12 {
        let state = drawn(&mut rng);
        let most = steps(&state) as usize + 2;
        let budget = rng.between(most / 2, most) as u32;
        let row = parts(&mut rng, budget);
        group(script, &state, budget, &[row]);
    }
}
