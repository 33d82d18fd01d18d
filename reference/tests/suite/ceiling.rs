//! No run takes more steps than its ceiling (W-206).

use reference::ceiling::{ceiling, in_mid_cycle, Nearness};
use reference::gen::{all_tables, any_table, band, long_runs, one_way_valleys, ring};
use reference::gen::{Family, Sheet, Xorshift};
use reference::program::{self, BUDGET};
use reference::state::last_place;
use reference::{Calls, End, Fast, LegTable, Plain, WorkState};

use crate::{opened, ALL, FAST};

/// A run whose budget is the ceiling comes to its end, and just its steps suffice.
fn hold(calls: &dyn Calls, state: WorkState) -> Nearness {
    let allowed = ceiling(&state);
    let ran = calls.run(state, allowed);
    assert!(ran.number == 0 && ran.state.end != End::Open, "{state}");
    assert!(ran.steps > 0 && ran.steps <= allowed, "{state}");

    assert_eq!(calls.run(state, ran.steps), ran, "{state}");
    assert_eq!(calls.run(state, BUDGET), ran, "{state}");
    let cut = calls.run(state, ran.steps - 1);
    assert_eq!((cut.state.end, cut.steps), (End::Open, ran.steps - 1));
    Nearness::of(&state, &ran)
}

/// The table at every place with both marks, open.
fn at_every_place(table: &LegTable, limit: u64) -> impl Iterator<Item = WorkState> {
    let state = WorkState::opened(table, limit);
    let places = 0..=last_place(state.n);
    places.flat_map(move |place| {
        [false, true].map(|mark| WorkState {
            place,
            mark,
            ..state
        })
    })
}

fn hold_at_every_place(calls: &dyn Calls, table: &LegTable, limit: u64) {
    for state in at_every_place(table, limit) {
        hold(calls, state);
    }
}

fn fast_at_every_place(table: &LegTable, limit: u64) {
    for fast in FAST {
        hold_at_every_place(fast, table, limit);
    }
}

#[test]
fn the_ceiling_by_hand() {
    let ceilings = [(2, 12), (3, 35), (4, 78), (64, 266_178)];
    for (n, steps) in ceilings {
        assert_eq!(ceiling(&opened(&LegTable::full(n))), steps);
    }
    assert_eq!(ceiling(&opened(&LegTable::empty(64))), 66);
    assert_eq!(ceiling(&opened(&ring(6))), 56);
}

/// A cycle that has begun comes before the others, wherever it stands.
#[test]
fn the_ceiling_in_mid_cycle_by_hand() {
    let cases = [(LegTable::full(64), 266_244), (LegTable::empty(2), 8)];
    for (table, steps) in cases {
        for state in at_every_place(&table, 64).filter(in_mid_cycle) {
            assert_eq!(ceiling(&state), steps);
        }
    }
}

/// Of all good states, one of all legs in mid-cycle has the highest ceiling.
#[test]
fn the_budget_of_the_program_is_enough() {
    let highest = at_every_place(&LegTable::full(64), 64).map(|state| ceiling(&state));
    let highest = highest.max().expect("a state");
    assert_eq!((highest, highest <= BUDGET), (266_244, true));
}

#[test]
fn nearer_by_the_ratio_and_then_by_the_steps() {
    let near = |steps, ceiling| Nearness { steps, ceiling };
    let rising = [near(0, 1), near(1, 9), near(1, 8), near(2, 16), near(3, 8)];
    assert!(rising.is_sorted());
    assert_eq!(near(3, 8).ratio(), 0.375);
}

#[test]
fn all_tables_of_two_to_four_stations() {
    // Stations, the nearest run with limit 64, and with limit 1.
    let expected = [
        (2, (4, 12), (4, 12)),
        (3, (10, 25), (10, 25)),
        (4, (12, 36), (18, 48)),
    ];
    for (n, highest_limit, lowest_limit) in expected {
        for (limit, (steps, ceiling)) in [(64, highest_limit), (1, lowest_limit)] {
            let runs = all_tables(n).map(|table| {
                let state = WorkState::opened(&table, limit);
                let near = hold(&Plain, state);
                assert!(FAST.iter().all(|&fast| hold(fast, state) == near));
                near
            });
            assert_eq!(runs.max(), Some(Nearness { steps, ceiling }));
        }
    }
}

#[test]
fn all_tables_of_two_to_four_stations_from_every_place() {
    for limit in [1, 64] {
        for n in 2..=4 {
            for table in all_tables(n) {
                fast_at_every_place(&table, limit);
            }
        }
        for table in (2..=3).flat_map(all_tables) {
            hold_at_every_place(&Plain, &table, limit);
        }
    }
}

/// Tables of every family, and of valleys.
fn made_up(rng: &mut Xorshift, n: usize) -> Vec<LegTable> {
    let families = Family::FOR_PASSES.iter().chain(&Family::FOR_CHAINS);
    let mut tables: Vec<_> = families.map(|family| family.table(rng, n)).collect();
    tables.push(one_way_valleys(rng, n).0);
    tables
}

#[test]
fn made_up_tables_of_5_to_16_stations() {
    let mut rng = Xorshift::new(61);
    let mut nearest = Nearness::default();
    for n in 5..=16 {
        for table in made_up(&mut rng, n) {
            for limit in [1, 2, 64] {
                let near = hold(&Fast, WorkState::opened(&table, limit));
                nearest = nearest.max(near);
                fast_at_every_place(&table, limit);
            }
            hold(&Plain, opened(&table));
        }
    }
    // Few legs and more than one cycle.
    assert!(nearest.ratio() > 0.25, "{nearest:?}");
}

#[test]
fn made_up_tables_of_64_stations() {
    let mut rng = Xorshift::new(62);
    for table in made_up(&mut rng, 64) {
        let state = opened(&table);
        let [steps, told] = FAST.map(|fast| hold(fast, state).steps);
        assert_eq!(steps, told);
        for (place, mark) in [(0, true), (1, false), (33, true), (65, false), (65, true)] {
            let begun = WorkState {
                place,
                mark,
                ..state
            };
            assert_eq!(hold(FAST[0], begun), hold(FAST[1], begun));
        }
        if steps < 140 {
            hold(&Plain, state);
        }
    }
}

#[test]
fn the_longest_runs_that_were_found() {
    let of_few = [(4, 12), (10, 25), (12, 36), (28, 84), (32, 104)];
    let of_more = [(80, 190), (154, 350), (270, 630)];
    let expected = of_few.into_iter().chain(of_more);
    for (table, (steps, ceiling)) in long_runs().iter().zip(expected) {
        for calls in ALL {
            let near = hold(calls, opened(table));
            assert_eq!(near, Nearness { steps, ceiling });
        }
        fast_at_every_place(table, 64);
    }
    for fast in FAST {
        assert_eq!(hold(fast, opened(&band(64))).steps, 1_188);
    }
}

/// On an ended state there is nothing to do, so that any budget is enough.
#[test]
fn ended_states_take_no_step() {
    for calls in ALL {
        for end in [End::Stable, End::None] {
            for state in at_every_place(&LegTable::full(5), 64) {
                let ended = WorkState { end, ..state };
                let ran = calls.run(ended, ceiling(&ended));
                assert_eq!((ran.steps, ran.state), (0, ended));
            }
        }
    }
}

#[test]
fn the_program_never_says_open() {
    let mut rng = Xorshift::new(63);
    for _ in 0..1_500 {
        let n = rng.between(2, 40);
        let table = any_table(&mut rng, n);
        let sheets = [Sheet::mixed(&mut rng, &table), Sheet::random(&mut rng, n)];
        for sheet in sheets {
            let text = program::output(&Fast, &sheet.bytes());
            assert!(text.starts_with("stations ") && !text.contains(" end open"));
        }
    }
    for sheet in [Sheet::plain(64), Sheet::longest()] {
        let text = program::output(&Fast, &sheet.bytes());
        assert!(text.contains(" end stable\n"));
    }
}
