//! Previews: the legs that a step would remove, the end that would follow, and the state as it
//! was.
//!
//! A preview leaves the state, so a row is a state and some previews from there. Many go on
//! with a step that was previewed, and with its preview on what the step has left.

mod drawn;

use self::drawn::{drawn, limit_tells, none_with_legs, step_that, FITS};
use super::bad_states::bad_states;
use super::stable::calls;
use super::states_of;
use crate::calls::Fast;
use crate::fast;
use crate::gen::{chain_among, long_runs, loop_among, ring, ring_of_rungs, two_way};
use crate::gen::{must::NO_ROADS, Family, Sheet, Xorshift};
use crate::paper;
use crate::preview::HandStep;
use crate::program::LIMIT;
use crate::script::Script;
use crate::sheet::open;
use crate::stable::stray_seeds;
use crate::state::{End, WorkState};
use crate::table::LegTable;

pub fn add(script: &mut Script) {
    named_tables(script);
    by_hand(script);
    states_that_are_bad(script);
    seeds_that_are_stray(script);
    none_after_legs(script);
    limits(script);
    of_each_kind(script);
    on_stable_states(script);
    among_calls(script);
}

fn open_short(script: &mut Script, limit: u64, table: &LegTable) -> WorkState {
    script.open(limit, &Sheet::short(table).bytes());
    WorkState::opened(table, limit)
}

fn previews(script: &mut Script, steps: impl IntoIterator<Item = HandStep>) {
    for step in steps {
        script.preview(step);
    }
}

/// The preview of a step, the step, and its preview on what is left.
fn around(script: &mut Script, step: HandStep) {
    script.preview(step);
    script.by_hand(step);
    script.preview(step);
}

fn nine_legs() -> LegTable {
    open(&paper::NINE_LEGS, LIMIT).state.table()
}

/// Two triangles without a road between them.
fn two_islands() -> LegTable {
    two_way(6, &[(1, 2), (2, 3), (1, 3), (4, 5), (5, 6), (4, 6)])
}

/// Every preview, then each kind of step from the same state: a pass that changes something,
/// if there is one.
fn named_tables(script: &mut Script) {
    let named = [
        nine_legs(),
        paper::catalogue(),
        paper::butterfly(),
        paper::petersen(),
        paper::greedy_trap(),
        paper::valley(),
        paper::dead_end(),
        two_islands(),
        ring(5),
        ring_of_rungs(6),
        chain_among(3, 5),
        loop_among(2, 4),
        LegTable::full(2),
        LegTable::full(4),
        LegTable::empty(2),
    ];
    for table in named.iter().chain(&long_runs()[3..7]) {
        let state = open_short(script, LIMIT, table);
        previews(script, HandStep::all(state.n));
        let mut passes = (1..=state.n).map(HandStep::Pass);
        let pass = passes.find(|pass| pass.make(&Fast, state).state != state);
        let pass = pass.unwrap_or(HandStep::Pass(1));
        for step in [HandStep::Sweep, HandStep::Chain, pass] {
            open_short(script, LIMIT, table);
            around(script, step);
        }
    }
}

/// Legs that go, none and nothing at all, under every end.
fn by_hand(script: &mut Script) {
    for (table, step) in [
        (nine_legs(), HandStep::Sweep),
        (chain_among(3, 5), HandStep::Chain),
        (ring_of_rungs(6), HandStep::Pass(1)),
        (LegTable::empty(2), HandStep::Sweep),
        (loop_among(2, 4), HandStep::Chain),
        (paper::butterfly(), HandStep::Pass(1)),
        (LegTable::full(3), HandStep::Pass(2)),
    ] {
        for state in states_of(&table) {
            script.work(&state);
            around(script, step);
        }
    }
}

/// Those of few rows. The state is checked before the seed.
fn states_that_are_bad(script: &mut Script) {
    let few = |state: &WorkState| state.rows[8..] == [0; 56];
    let bad = bad_states().into_iter().filter(few);
    for state in [WorkState::BLANK].into_iter().chain(bad) {
        script.work(&state);
        previews(script, [HandStep::Sweep, HandStep::Chain]);
        previews(script, [1, 0].map(HandStep::Pass));
    }
}

/// Also where the end is none. The pass itself is refused, too.
fn seeds_that_are_stray(script: &mut Script) {
    for state in states_of(&nine_legs()) {
        script.work(&state);
        let stray = stray_seeds(state.n).map(HandStep::Pass);
        previews(script, stray);
        around(script, stray[1]);
    }
    open_short(script, LIMIT, &ring(64));
    previews(script, [64, 65, 0].map(HandStep::Pass));
}

/// A pass that removes legs at one level and gives none at a later one: opened, and at another
/// place with a stable end.
fn none_after_legs(script: &mut Script) {
    let mut rng = Xorshift::new(1801);
    for n in [5, 6, 7, 8, 9, 10, 16, 24, 32, 64] {
        let (table, step) = none_with_legs(&mut rng, n);
        let state = open_short(script, LIMIT, &table);
        previews(script, [HandStep::Sweep, HandStep::Chain]);
        around(script, step);
        if n <= 10 {
            script.work(&WorkState {
                place: 2,
                mark: true,
                end: End::Stable,
                ..state
            });
            around(script, step);
        }
    }
}

/// The same pass with several limits.
fn limits(script: &mut Script) {
    let mut rng = Xorshift::new(1802);
    for n in 6..=9 {
        let (state, step) = drawn(&mut rng, n, limit_tells);
        for limit in [1, 2, 3, LIMIT] {
            open_short(script, limit, &state.table());
            around(script, step);
        }
    }
}

/// Of each step what it may show, at any place with any mark, end and limit.
fn of_each_kind(script: &mut Script) {
    let mut rng = Xorshift::new(1803);
    let few = FITS.iter().flat_map(|fits| [4, 6, 8].map(|n| (n, *fits)));
    let many = FITS[..3].iter().map(|fits| (20, *fits));
    for (n, fits) in few.chain(many) {
        let (state, step) = drawn(&mut rng, n, fits);
        script.work(&state);
        around(script, step);
    }
    for &fits in &FITS[..3] {
        let (state, step) = drawn(&mut rng, 64, fits);
        open_short(script, state.limit, &state.table());
        around(script, step);
    }
}

/// Every preview of a stable state that a run has come to, also with stray seeds.
fn on_stable_states(script: &mut Script) {
    let named = [nine_legs(), paper::catalogue(), paper::petersen()];
    for table in named.iter().chain(&long_runs()[4..6]) {
        let opened = open_short(script, LIMIT, table);
        script.run(u32::MAX);
        assert_eq!(fast::run(opened, u32::MAX).state.end, End::Stable);
        previews(script, HandStep::all(opened.n));
        previews(script, stray_seeds(opened.n).map(HandStep::Pass));
    }
    let table = Family::RingWithRungs.table(&mut Xorshift::new(1804), 64);
    open_short(script, LIMIT, &table);
    script.run(u32::MAX);
    previews(script, [HandStep::Sweep, HandStep::Chain]);
    previews(script, [1, 33, 64, 65].map(HandStep::Pass));
}

/// No call sees the previews between the calls.
fn among_calls(script: &mut Script) {
    let mut rng = Xorshift::new(1805);
    for n in 4..=11 {
        let (table, limit, calls) = calls::drawn(&mut rng, n, calls::strikes_amid);
        let mut state = open_short(script, limit, &table);
        for call in calls {
            previews(script, [HandStep::Sweep, step_that(&mut rng, &state)]);
            call.add(script);
            state = call.after(state);
        }
        script.preview(HandStep::Chain);
        script.cut(&NO_ROADS);
        script.preview(step_that(&mut rng, &state));
        script.first_round(u32::MAX, n as u8);
        script.run(u32::MAX);
        script.preview(HandStep::Pass(n as u64));
        script.run(u32::MAX);
    }
}
