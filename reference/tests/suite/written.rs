//! The sheet of what is left: bytes written by hand, buffers of every length, and
//! the way back to the table.

use std::collections::BTreeSet;

use reference::gen::{all_tables, any_table, ring, Xorshift};
use reference::paper::NINE_LEGS;
use reference::state::last_place;
use reference::written::WRITTEN_MOST;
use reference::{Calls, End, LegTable, WorkState};

use crate::{opened, ALL};

/// What is written of a state into a buffer that always suffices.
fn written(calls: &dyn Calls, state: &WorkState) -> Vec<u8> {
    let mut buffer = vec![b'.'; WRITTEN_MOST];
    let written = calls.write(state, &mut buffer);
    assert_eq!(written.number, 0);
    buffer.truncate(written.length as usize);
    buffer
}

fn assert_written(state: &WorkState, sheet: &[u8]) {
    for calls in ALL {
        assert_eq!(written(calls, state), sheet);
    }
}

fn assert_table_written(n: usize, legs: &[(usize, usize)], sheet: &[u8]) {
    let table = LegTable::from_legs(n, legs.iter().copied());
    assert_written(&opened(&table), sheet);
}

#[test]
fn full_tables_by_hand() {
    assert_written(&opened(&LegTable::full(2)), &[2, 0, 0]);
    assert_written(&opened(&LegTable::full(3)), &[3, 0, 0, 0]);
    let longest = [&[64][..], &[0; 64]].concat();
    assert_written(&opened(&LegTable::full(64)), &longest);
}

#[test]
fn empty_rows_by_hand() {
    let empty = [1, 0, 0, 0, 0, 0, 0, 0, 0];
    assert_table_written(2, &[], &[&[2][..], &empty, &empty].concat());
    assert_table_written(2, &[(1, 2)], &[&[2, 0][..], &empty].concat());
    assert_table_written(2, &[(2, 1)], &[&[2][..], &empty, &[0]].concat());
    let of_64 = [&[64][..], &empty.repeat(64)].concat();
    assert_eq!(of_64.len(), WRITTEN_MOST);
    assert_table_written(64, &[], &of_64);
}

#[test]
fn rows_of_each_kind_by_hand() {
    let sheet = [3, 4, 2, 0, 1, 0, 0, 0, 0, 0, 0, 0, 0];
    assert_table_written(3, &[(1, 2), (2, 1), (2, 3)], &sheet);
    let sheet = [
        4, //
        1, 0b0110, 0, 0, 0, 0, 0, 0, 0, //
        0, //
        4, 4, //
        1, 0, 0, 0, 0, 0, 0, 0, 0,
    ];
    let legs = [(1, 2), (1, 3), (2, 1), (2, 3), (2, 4), (3, 4)];
    assert_table_written(4, &legs, &sheet);
}

/// The first and the last station of a set, and all but one of the others.
#[test]
fn sets_of_64_by_hand() {
    let mut table = ring(64);
    table.add(2, 1);
    table.add(2, 64);
    table.strike(&[(2, 3)]);
    for j in 2..=62 {
        table.add(64, j);
    }
    let mut sheet = vec![64, 4, 2];
    sheet.extend([1, 0x01, 0, 0, 0, 0, 0, 0, 0x80]);
    for i in 3..=63 {
        sheet.extend([4, i + 1]);
    }
    sheet.extend([1, 0xFF, 0xFF, 0xFF, 0xFF, 0xFF, 0xFF, 0xFF, 0x3F]);
    assert_written(&opened(&table), &sheet);
}

#[test]
fn the_nine_legs_are_written_as_they_came() {
    for calls in ALL {
        let state = calls.open(&NINE_LEGS, 64).state;
        assert_eq!(written(calls, &state), NINE_LEGS);
        let stable = calls.run(state, u32::MAX).state;
        let struck = [6, 4, 4, 4, 5, 4, 6, 4, 2, 4, 3, 4, 1];
        assert_eq!(written(calls, &stable), struck);
    }
}

/// All of these sheets differ, and each gives its table.
#[test]
fn each_small_table_has_a_sheet_of_its_own() {
    for calls in ALL {
        let mut sheets = BTreeSet::new();
        let mut tables = 0;
        for table in (2..=4).flat_map(all_tables) {
            let sheet = written(calls, &opened(&table));
            assert_eq!(calls.open(&sheet, 64).state, opened(&table));
            sheets.insert(sheet);
            tables += 1;
        }
        assert_eq!((tables, sheets.len()), (4 + 64 + 4_096, tables));
    }
}

/// By the rule for one row, from its word.
fn record_by_rule(n: usize, row: u64) -> Vec<u8> {
    if row.count_ones() as usize == n - 1 {
        vec![0]
    } else if row.count_ones() == 1 {
        vec![4, row.ilog2() as u8 + 1]
    } else {
        [&[1][..], &row.to_le_bytes()].concat()
    }
}

#[test]
fn made_up_tables_are_written_by_the_rule() {
    let mut rng = Xorshift::new(41);
    for _ in 0..2_000 {
        let n = rng.between(2, 64);
        let table = any_table(&mut rng, n);
        let mut sheet = vec![n as u8];
        for row in table.rows().into_iter().take(n) {
            sheet.extend(record_by_rule(n, row));
        }
        assert_written(&opened(&table), &sheet);
        for calls in ALL {
            assert_eq!(calls.open(&sheet, 64).state, opened(&table));
        }
    }
}

#[test]
fn place_mark_end_and_limit_are_not_written() {
    let mut rng = Xorshift::new(42);
    for n in [2, 3, 9, 64] {
        let state = opened(&any_table(&mut rng, n));
        for calls in ALL {
            let sheet = written(calls, &state);
            for end in [End::Open, End::Stable, End::None] {
                for place in [0, 1, last_place(state.n)] {
                    for (mark, limit) in [(false, 1), (true, 2), (true, 64)] {
                        let other = WorkState {
                            end,
                            place,
                            mark,
                            limit,
                            ..state
                        };
                        assert_eq!(written(calls, &other), sheet);
                    }
                }
            }
        }
    }
}

#[test]
fn sheets_fill_just_their_bytes() {
    let mut rng = Xorshift::new(43);
    for n in [2, 3, 10, 64] {
        let tables = [
            LegTable::full(n),
            LegTable::empty(n),
            any_table(&mut rng, n),
        ];
        for state in tables.iter().map(opened) {
            for calls in ALL {
                let sheet = written(calls, &state);
                for room in 0..sheet.len() + 30 {
                    let mut buffer = vec![b'.'; room];
                    let mut expected = buffer.clone();
                    let filled = calls.write(&state, &mut buffer);
                    let answer = if room < sheet.len() {
                        (10, 0)
                    } else {
                        expected[..sheet.len()].copy_from_slice(&sheet);
                        (0, sheet.len() as u64)
                    };
                    assert_eq!((filled.number, filled.length), answer);
                    assert_eq!(buffer, expected);
                }
            }
        }
    }
}
