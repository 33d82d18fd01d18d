//! Cut steps: cuts of up to four roads, what a step forces and drops and what it leaves to
//! the next one, refusals in their order, states of every kind, and steps among other calls.
//!
//! A row is a state and a cut step from there; many go on, each step with the must-drive
//! table that the one before handed back, up to a step that changes nothing.

mod among_calls;
mod drawn;
mod refusals;

use self::drawn::{drawn, FITS};
use super::states_of;
use crate::cut::cut;
use crate::gen::must::{some_roads, NO_ROADS};
use crate::gen::{ring, ring_of_rungs, two_way, Sheet, Ways, Xorshift, SEARCHED, SHAPES};
use crate::paper;
use crate::program::LIMIT;
use crate::script::Script;
use crate::state::{Rows, WorkState};
use crate::table::{Leg, LegTable};

pub fn add(script: &mut Script) {
    joined_groups(script);
    at_one_station(script);
    forced_at_one(script);
    named_tables(script);
    shapes(script);
    refusals::add(script);
    by_hand(script);
    among_calls::add(script);
    of_each_kind(script);
    small_tables(script);
}

fn open(script: &mut Script, table: &LegTable) -> WorkState {
    script.open(LIMIT, &Sheet::short(table).bytes());
    WorkState::opened(table, LIMIT)
}

/// A must-drive table, also of roads that no table has.
fn must_of(roads: &[Leg]) -> Rows {
    two_way(64, roads).rows()
}

/// Each step is given what the one before handed back.
fn cut_until_still(script: &mut Script, mut state: WorkState, must: &Rows) {
    let mut must = *must;
    loop {
        script.cut(&must);
        let after = cut(state, &must);
        if (after.state, after.must) == (state, must) {
            return;
        }
        (state, must) = (after.state, after.must);
    }
}

fn row(script: &mut Script, table: &LegTable, must: &Rows) {
    let state = open(script, table);
    cut_until_still(script, state, must);
}

fn one_step(script: &mut Script, table: &LegTable, must: &Rows) {
    open(script, table);
    script.cut(must);
}

/// A road between every two stations from `first` to `last`.
fn all_roads(first: usize, last: usize) -> impl Iterator<Item = Leg> {
    (first..=last).flat_map(move |j| (first..j).map(move |i| (i, j)))
}

/// Two groups of five stations and so many roads between them. No other cut has less than
/// four roads, and roads within a group count for nothing.
fn joined_groups(script: &mut Script) {
    for count in 0..=4 {
        let between: Vec<Leg> = (1..=count).map(|i| (i, 11 - i)).collect();
        let groups = all_roads(1, 5).chain(all_roads(6, 10));
        let roads: Vec<Leg> = groups.chain(between.iter().copied()).collect();
        let table = two_way(10, &roads);
        for given in 0..=count {
            one_step(script, &table, &must_of(&between[..given]));
        }
        one_step(script, &table, &must_of(&[(1, 2), (1, 3), (1, 4)]));
    }
}

/// Four stations without the road from 1 to 4.
fn but_one_road() -> LegTable {
    two_way(4, &[(1, 2), (1, 3), (2, 3), (2, 4), (3, 4)])
}

/// Stations 1 and 2, each with a road to all others: where these are three, the second step
/// gives none.
fn between_two(n: usize) -> LegTable {
    let roads: Vec<Leg> = (3..=n).flat_map(|i| [(1, i), (2, i)]).collect();
    two_way(n, &roads)
}

fn ladder(n: usize) -> LegTable {
    let along = (1..=n - 2).map(|i| (i, i + 2));
    let rungs = (1..n).step_by(2).map(|i| (i, i + 1));
    two_way(n, &along.chain(rungs).collect::<Vec<_>>())
}

fn two_way_ring(n: usize) -> LegTable {
    two_way(n, &ring(n).legs())
}

/// Three roads at a station: the third one goes where two are must-drive.
fn at_one_station(script: &mut Script) {
    let roads = [(1, 2), (1, 3), (1, 4)];
    for given in 0..=3 {
        row(script, &LegTable::full(4), &must_of(&roads[..given]));
    }
}

/// What the first step forces counts from the second one on: with no must-drive road given,
/// that from 2 to 3 goes then. With those from 2 to 3 and 4, the road from 1 to 2 is forced
/// at station 1 and would go at station 2: none.
fn forced_at_one(script: &mut Script) {
    for must in [
        &[][..],
        &[(2, 3)],
        &[(2, 3), (2, 4)],
        &[(1, 2), (2, 4)],
        &[(1, 2), (2, 3), (2, 4)],
    ] {
        row(script, &but_one_road(), &must_of(must));
    }
}

fn named_tables(script: &mut Script) {
    let unjoined = [
        LegTable::empty(3),
        LegTable::empty(64),
        two_way(4, &[(1, 2), (2, 3), (1, 3)]),
    ];
    let others = [
        LegTable::full(3),
        LegTable::full(5),
        LegTable::full(64),
        between_two(5),
        between_two(6),
        paper::butterfly(),
        paper::petersen(),
        ring_of_rungs(6),
        ring_of_rungs(16),
        ladder(6),
        ladder(10),
        ladder(64),
    ];
    let rings = [3, 4, 5, 64].map(two_way_ring);
    for table in unjoined.iter().chain(&others).chain(&rings) {
        row(script, table, &NO_ROADS);
    }
    let full = [4, 5, 64].map(LegTable::full);
    for table in full.iter().chain([&paper::petersen()]) {
        one_step(script, table, &table.rows());
    }
}

/// With no must-drive road, and with two of one station.
fn shapes(script: &mut Script) {
    let mut rng = Xorshift::new(1701);
    let timed = SHAPES.iter().filter(|shape| shape.ways == Ways::Both);
    for shape in timed.chain(&SEARCHED[..1]) {
        for n in [8, 16] {
            let table = shape.table(&mut rng, n);
            row(script, &table, &NO_ROADS);
            let station = rng.between(1, n);
            let next = table.successors(station).iter();
            let two: Vec<Leg> = next.take(2).map(|&j| (station, j)).collect();
            one_step(script, &table, &must_of(&two));
        }
        one_step(script, &shape.table(&mut rng, 64), &NO_ROADS);
    }
}

/// Roads that go, roads that are only forced, none, and nothing at all, under every end.
fn by_hand(script: &mut Script) {
    for (table, must) in [
        (LegTable::full(4), &[(1, 2), (1, 3)][..]),
        (but_one_road(), &[]),
        (but_one_road(), &[(2, 3), (2, 4)]),
        (LegTable::full(5), &[(1, 2)]),
    ] {
        for state in states_of(&table) {
            script.work(&state);
            cut_until_still(script, state, &must_of(must));
        }
    }
}

/// Of each kind that tells one reading of the rule from another.
fn of_each_kind(script: &mut Script) {
    let mut rng = Xorshift::new(1702);
    for fits in FITS {
        for n in 4..=8 {
            let (table, must) = drawn(&mut rng, n, fits);
            row(script, &table, &must);
        }
    }
}

/// One step with each of some must-drive tables.
fn small_tables(script: &mut Script) {
    let mut rng = Xorshift::new(1703);
    for at in 0..36 {
        let table = drawn::table(&mut rng, 3 + at % 6);
        for chance in [0, 20, 30, 40, 60] {
            let must = some_roads(&mut rng, &table.rows(), chance);
            one_step(script, &table, &must);
        }
    }
}
