//! The cut step over words against the plain one.

use reference::card;
use reference::cut::Cut;
use reference::gen::must::{some_roads, stray, NO_ROADS};
use reference::gen::{all_tables, any_state, any_table, any_two_way, two_way};
use reference::gen::{Xorshift, SEARCHED, SHAPES};
use reference::state::Rows;
use reference::{cut, fast, End, LegTable, WorkState};

use crate::opened;

fn hold(state: WorkState, must: &Rows) -> Cut {
    let done = fast::cut(state, must);
    assert_eq!(done, cut(state, must), "{must:x?} on {state}");
    done
}

/// Taken steps by what they did.
#[derive(Debug, Default)]
struct Counts {
    none: usize,
    more: usize,
    gone: usize,
    nothing: usize,
}

impl Counts {
    fn add(&mut self, must: &Rows, done: &Cut) {
        assert_eq!(done.number, card::TAKEN);
        let none = done.state.end == End::None;
        let (more, gone) = (done.must != *must, done.removed > 0);
        self.none += usize::from(none);
        self.more += usize::from(more);
        self.gone += usize::from(gone);
        self.nothing += usize::from(!(none || more || gone));
    }

    fn fewest(&self) -> usize {
        let of_roads = self.more.min(self.gone);
        of_roads.min(self.none).min(self.nothing)
    }
}

/// Steps one after the other until one changes nothing.
fn hold_in_a_row(counts: &mut Counts, mut state: WorkState, mut must: Rows) {
    loop {
        let done = hold(state, &must);
        counts.add(&must, &done);
        if (done.state, done.must) == (state, must) {
            break;
        }
        (state, must) = (done.state, done.must);
    }
}

/// Each leg of a table both ways.
fn mirrored(table: &LegTable) -> LegTable {
    two_way(table.n(), &table.legs())
}

fn any_network(rng: &mut Xorshift, n: usize) -> LegTable {
    match rng.below(4) {
        1.. if n >= 3 => any_two_way(rng, n).0,
        _ => mirrored(&any_table(rng, n)),
    }
}

fn any_roads(rng: &mut Xorshift, rows: &Rows) -> Rows {
    let chance = rng.pick(&[0, 10, 30, 60]);
    some_roads(rng, rows, chance)
}

#[test]
fn all_tables_of_up_to_four_stations() {
    let mut rng = Xorshift::new(209);
    for table in (2..=4).flat_map(all_tables) {
        hold(opened(&table), &NO_ROADS);
        let mirrored = opened(&mirrored(&table));
        hold(mirrored, &any_roads(&mut rng, &mirrored.rows));
    }
}

#[test]
fn made_up_networks() {
    let mut rng = Xorshift::new(209);
    for (tables, stations) in [(3_000, 3..=8), (200, 9..=12), (500, 13..=30), (50, 31..=64)] {
        let mut counts = Counts::default();
        for _ in 0..tables {
            let n = rng.between(*stations.start(), *stations.end());
            let state = opened(&any_network(&mut rng, n));
            let must = any_roads(&mut rng, &state.rows);
            hold_in_a_row(&mut counts, state, must);
        }
        assert!(counts.fewest() >= tables / 25, "{stations:?}: {counts:?}");
    }
}

#[test]
fn tables_of_the_benchmarks() {
    let mut rng = Xorshift::new(209);
    let mut counts = Counts::default();
    for shape in SHAPES.iter().chain(&SEARCHED) {
        for n in [8, 16, 32, 64] {
            let state = opened(&mirrored(&shape.table(&mut rng, n)));
            let must = any_roads(&mut rng, &state.rows);
            hold_in_a_row(&mut counts, state, NO_ROADS);
            hold_in_a_row(&mut counts, state, must);
        }
    }
    assert!(counts.fewest() >= 3, "{counts:?}");
}

#[test]
fn any_state_and_damaged_tables() {
    let mut rng = Xorshift::new(209);
    let mut numbers = [0; 13];
    for _ in 0..10_000 {
        let most = rng.pick(&[8, 8, 8, 8, 12, 20]);
        let n = rng.between(2, most);
        let mut state = any_state(&mut rng, n);
        if rng.percent(90) {
            state.rows = any_network(&mut rng, n).rows();
        }
        let mut must = any_roads(&mut rng, &state.rows);
        match rng.below(6) {
            0 | 1 => must = stray(&mut rng, &state, &must),
            2 => must[rng.below(64)] ^= 1 << rng.below(64),
            3 => state.rows[rng.below(n)] ^= 1 << rng.below(n),
            4 => state.rows[rng.below(64)] |= 1 << rng.below(64),
            _ => {}
        }
        numbers[usize::from(hold(state, &must).number)] += 1;
    }
    let named = [
        card::TAKEN,
        card::BAD_WORK_STATE,
        card::NOT_TWO_WAY,
        card::STRAY_ROAD,
    ];
    for number in named {
        let times = numbers[usize::from(number)];
        assert!(times >= 1_000, "{number} came {times} times");
    }
}
