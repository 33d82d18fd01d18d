//! No call loses a leg that a round drives or denies a round that is there;
//! a run may be cut anywhere.

use std::collections::BTreeSet;

use reference::compare::valleys::TellingTable;
use reference::gen::{all_tables, any_table, one_way_valleys, Xorshift};
use reference::rounds::drivable_legs;
use reference::{chain, pass, run, sweep, End, LegTable, WorkState};

use crate::opened;

/// A state with the legs that must not be lost on the way.
struct Watched {
    drivable: BTreeSet<(usize, usize)>,
    state: WorkState,
}

impl Watched {
    fn new(table: &LegTable, limit: u64) -> Watched {
        Watched {
            drivable: drivable_legs(table),
            state: WorkState::opened(table, limit),
        }
    }

    /// Takes the next state of a sequence. Legs only ever go.
    fn accept(&mut self, next: WorkState, removed: u64) {
        let table = next.table();
        assert!(self.drivable.iter().all(|&(i, j)| table.has(i, j)));
        assert!(next.end != End::None || self.drivable.is_empty());
        for (after, before) in next.rows.iter().zip(&self.state.rows) {
            assert_eq!(after & !before, 0);
        }
        assert_eq!(removed, self.state.legs() - next.legs());
        self.state = next;
    }

    fn random_call(&mut self, rng: &mut Xorshift) {
        let n = self.state.n as usize;
        match rng.below(5) {
            0 => {
                let swept = sweep(self.state);
                self.accept(swept.state, swept.removed);
            }
            1 => {
                let chained = chain(self.state);
                self.accept(chained.state, chained.removed);
            }
            2 | 3 => {
                let passed = pass(self.state, rng.below(n + 2) as u64);
                self.accept(passed.state, passed.removed);
            }
            _ => {
                let ran = run(self.state, rng.below(n + 3) as u32);
                self.accept(ran.state, ran.removed);
            }
        }
    }

    fn run_to_the_end(&mut self) {
        let ran = run(self.state, u32::MAX);
        self.accept(ran.state, ran.removed);
        assert_ne!(self.state.end, End::Open);
    }
}

#[test]
fn every_call_on_all_tables_up_to_four() {
    for n in 2..=4 {
        for table in all_tables(n) {
            for limit in [1, 2, 64] {
                for seed in 1..=n as u64 {
                    let mut watched = Watched::new(&table, limit);
                    let passed = pass(watched.state, seed);
                    watched.accept(passed.state, passed.removed);
                }
                for step in [sweep, chain] {
                    let mut watched = Watched::new(&table, limit);
                    let handled = step(watched.state);
                    watched.accept(handled.state, handled.removed);
                    watched.run_to_the_end();
                }
            }
        }
    }
}

#[test]
fn random_sequences_up_to_seven() {
    let mut rng = Xorshift::new(2);
    let (mut with_round, mut lost_legs, mut none) = (0, 0, 0);
    for _ in 0..6_000 {
        let n = rng.between(2, 7);
        let table = any_table(&mut rng, n);
        let mut watched = Watched::new(&table, rng.pick(&[1, 2, 3, 64]));
        for _ in 0..rng.below(8) {
            watched.random_call(&mut rng);
        }
        watched.run_to_the_end();
        with_round += u32::from(!watched.drivable.is_empty());
        lost_legs += u32::from(watched.state.legs() < table.leg_count());
        none += u32::from(watched.state.end == End::None);
    }
    assert!(with_round > 1_000 && lost_legs > 500 && none > 500);
}

/// Each pass on the opened table, then the run.
#[test]
fn passes_and_runs_on_valleys_up_to_eight() {
    let mut rng = Xorshift::new(6);
    let (mut with_round, mut lost_legs, mut none) = (0, 0, 0);
    for at in 0..3_000 {
        let n = rng.between(6, 8);
        // On every third table marks that ask for no way would tell.
        let table = match at % 3 {
            0 => TellingTable::drawn(&mut rng, n).table,
            _ => one_way_valleys(&mut rng, n).0,
        };
        for seed in 1..=n as u64 {
            let mut watched = Watched::new(&table, 64);
            let passed = pass(watched.state, seed);
            watched.accept(passed.state, passed.removed);
            with_round += u32::from(!watched.drivable.is_empty());
            lost_legs += u32::from(passed.removed > 0);
            none += u32::from(passed.state.end == End::None);
        }
        let mut watched = Watched::new(&table, rng.pick(&[2, 3, 64]));
        watched.run_to_the_end();
    }
    assert!(with_round > 5_000 && lost_legs > 1_000 && none > 1_000);
}

/// Any good state, also one that no opening gives.
fn any_state(rng: &mut Xorshift) -> WorkState {
    let n = rng.between(2, 8);
    WorkState {
        limit: rng.pick(&[1, 2, 3, 64]),
        place: rng.below(n + 2) as u64,
        mark: rng.percent(50),
        end: rng.pick(&[End::Open, End::Open, End::Open, End::Stable, End::None]),
        ..opened(&any_table(rng, n))
    }
}

#[test]
fn a_run_cut_in_two_equals_one_run() {
    let mut rng = Xorshift::new(3);
    for _ in 0..4_000 {
        let state = any_state(&mut rng);
        let (first, second) = (rng.below(20) as u32, rng.below(20) as u32);
        let whole = run(state, first + second);
        let start = run(state, first);
        let rest = run(start.state, second);
        assert_eq!(rest.state, whole.state);
        assert_eq!(start.steps + rest.steps, whole.steps);
        assert_eq!(start.removed + rest.removed, whole.removed);
    }
}

#[test]
fn a_larger_budget_never_leaves_more() {
    let mut rng = Xorshift::new(4);
    for _ in 0..400 {
        let mut state = any_state(&mut rng);
        if rng.percent(10) {
            state.limit = rng.pick(&[0, 65]);
        }
        let mut before = run(state, 0);
        assert_eq!((before.state, before.steps), (state, 0));
        for budget in 1..30 {
            let ran = run(state, budget);
            assert!(ran.steps <= budget);
            assert!(ran.steps == before.steps || ran.steps == before.steps + 1);
            assert!(ran.steps == budget || ran == before);
            for (after, earlier) in ran.state.rows.iter().zip(&before.state.rows) {
                assert_eq!(after & !earlier, 0);
            }
            before = ran;
        }
    }
}

#[test]
fn runs_stop_open_only_when_the_budget_is_spent() {
    let mut rng = Xorshift::new(5);
    for _ in 0..1_000 {
        let state = any_state(&mut rng);
        let budget = rng.below(40) as u32;
        let ran = run(state, budget);
        assert!(ran.state.end != End::Open || ran.steps == budget);
    }
}
