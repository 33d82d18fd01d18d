//! Sheets of what is left: every kind of record, buffers of every interesting
//! length, and the way back.

use super::{open_table, states_of};
use crate::gen::{any_table, ring, Sheet, Xorshift};
use crate::paper::NINE_LEGS;
use crate::script::{Script, LONGEST_WRITE};
use crate::state::{last_place, End, WorkState};
use crate::table::LegTable;
use crate::written::{written_sheet, WRITTEN_MOST};

pub fn add(script: &mut Script) {
    for table in tables() {
        into_buffers(script, &table);
        there_and_back(script, &table);
    }
    longest_buffer(script);
    other_states(script);
    struck_tables(script);
    bad_states(script);
}

fn tables() -> Vec<LegTable> {
    let mut tables = Vec::new();
    for n in [2, 3, 64] {
        let one_leg = LegTable::from_legs(n, [(n, n - 1)]);
        tables.extend([LegTable::full(n), LegTable::empty(n), ring(n), one_leg]);
    }
    for n in [4, 5, 64] {
        tables.extend([all_but_one(n), two_each(n)]);
    }
    tables.extend([without_row(5, 1), without_row(5, 5), each_kind()]);
    let mut rng = Xorshift::new(1001);
    tables.extend([7, 8, 9, 33].map(|n| any_table(&mut rng, n)));
    tables
}

/// All legs but those of a round.
fn all_but_one(n: usize) -> LegTable {
    let mut table = LegTable::full(n);
    table.strike(&ring(n).legs());
    table
}

/// A leg to each of the next two stations.
fn two_each(n: usize) -> LegTable {
    let mut table = ring(n);
    for i in 1..=n {
        table.add(i, (i + 1) % n + 1);
    }
    table
}

/// All legs but those of one station.
fn without_row(n: usize, station: usize) -> LegTable {
    let legs = LegTable::full(n).legs();
    LegTable::from_legs(n, legs.into_iter().filter(|(i, _)| *i != station))
}

/// A set, a full row, a single leg, an empty row.
fn each_kind() -> LegTable {
    let set_and_full = [(1, 2), (1, 3), (2, 1), (2, 3), (2, 4)];
    LegTable::from_legs(4, set_and_full.into_iter().chain([(3, 4)]))
}

fn into_buffers(script: &mut Script, table: &LegTable) {
    // By previous sets, which are never written.
    script.open(64, &Sheet::of_by_previous(table).bytes());
    let length = written_sheet(table).len();
    for buffer in [length, length - 1, length + 1, length + 20, 0, 1] {
        script.write(buffer);
    }
}

/// The written sheet, opened and written again.
fn there_and_back(script: &mut Script, table: &LegTable) {
    let sheet = written_sheet(table);
    script.open(1, &sheet);
    script.write(sheet.len());
}

fn longest_buffer(script: &mut Script) {
    open_table(script, 64, &two_each(64));
    script.write(usize::from(LONGEST_WRITE));
}

/// The same tables at other places, with other marks, ends and limits.
fn other_states(script: &mut Script) {
    for table in [each_kind(), ring(64)] {
        let length = written_sheet(&table).len();
        let limits = [1, 63].map(|limit| WorkState::opened(&table, limit));
        for state in states_of(&table).iter().chain(&limits) {
            script.work(state);
            script.write(length + 1);
        }
    }
}

/// What a run leaves; the end may be none.
fn struck_tables(script: &mut Script) {
    for sheet in [&NINE_LEGS[..], &[3, 0, 0, 0], &[2, 4, 1, 0], &[2, 0, 0]] {
        script.open(64, sheet);
        script.write(NINE_LEGS.len());
        script.run(u32::MAX);
        script.write(NINE_LEGS.len());
        script.write(3);
    }
}

/// A bad state comes before a buffer that is too short.
fn bad_states(script: &mut Script) {
    let good = WorkState::opened(&each_kind(), 64);
    let with_leg = |i: usize, j: usize| {
        let mut state = good;
        state.rows[i - 1] |= 1 << (j - 1);
        state
    };
    let one_station = WorkState {
        n: 1,
        limit: 64,
        ..WorkState::BLANK
    };
    let place = last_place(good.n) + 1;
    let end = End::None;
    let states = [
        WorkState::BLANK,
        one_station,
        WorkState { n: 65, ..good },
        WorkState { limit: 0, ..good },
        WorkState { limit: 65, ..good },
        WorkState { place, ..good },
        WorkState { place, end, ..good },
        with_leg(5, 1),
        with_leg(3, 5),
        with_leg(3, 3),
    ];
    for state in states {
        script.work(&state);
        for buffer in [0, 1, written_sheet(&each_kind()).len(), WRITTEN_MOST] {
            script.write(buffer);
        }
    }
}
