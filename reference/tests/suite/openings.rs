//! Sheets made from tables, and sheets damaged in a known way.

use reference::gen::{any_table, damaged, Record, Sheet, Xorshift};
use reference::{LegTable, WorkState};

use crate::{opened, ALL};

#[test]
fn sheets_of_tables_open_to_them() {
    let mut rng = Xorshift::new(7);
    for _ in 0..300 {
        let n = rng.between(2, 64);
        let table = any_table(&mut rng, n);
        for sheet in [Sheet::of(&table), Sheet::of_by_previous(&table)] {
            for calls in ALL {
                let answer = calls.open(&sheet.bytes(), 64);
                assert_eq!((answer.number, answer.place), (0, 0));
                assert_eq!(answer.state, opened(&table));
            }
        }
    }
}

/// The rule for one leg, straight from the records.
fn stands(records: &[Record], i: usize, j: usize) -> bool {
    let holds = |set: Option<u64>, k: usize| set.is_none_or(|word| word >> (k - 1) & 1 == 1);
    let (from, to) = (&records[i - 1], &records[j - 1]);
    i != j
        && holds(from.next, j)
        && holds(to.previous, i)
        && from.fixed.is_none_or(|station| usize::from(station) == j)
}

#[test]
fn fields_combine_as_the_rule_says() {
    let mut rng = Xorshift::new(8);
    for _ in 0..300 {
        let n = rng.between(2, 64);
        let sheet = Sheet::random(&mut rng, n);
        let mut table = LegTable::empty(n);
        for (i, j) in LegTable::full(n).legs() {
            if stands(&sheet.records, i, j) {
                table.add(i, j);
            }
        }
        for calls in ALL {
            let answer = calls.open(&sheet.bytes(), 64);
            assert_eq!(answer.number, 0);
            assert_eq!(answer.state, opened(&table));
        }
    }
}

#[test]
fn damaged_sheets_get_their_number_and_place() {
    let mut rng = Xorshift::new(9);
    for number in (1..=5).cycle().take(2_000) {
        let n = rng.between(2, 64);
        let sheet = Sheet::random(&mut rng, n);
        let damaged = damaged(&mut rng, &sheet, number);
        for calls in ALL {
            let answer = calls.open(&damaged.bytes, 64);
            let expected = (damaged.number, damaged.place as u64);
            assert_eq!((answer.number, answer.place), expected);
            assert_eq!(answer.state, WorkState::BLANK);
        }
    }
}

#[test]
fn every_cut_of_a_sheet_is_refused_at_its_end() {
    let mut rng = Xorshift::new(10);
    for n in [2, 3, 10, 64] {
        let bytes = Sheet::random(&mut rng, n).bytes();
        for length in 0..bytes.len() {
            for calls in ALL {
                let answer = calls.open(&bytes[..length], 64);
                assert_eq!((answer.number, answer.place), (1, length as u64));
            }
        }
    }
}

#[test]
fn a_bad_limit_comes_before_any_fault_of_the_sheet() {
    for calls in ALL {
        for sheet in [&[][..], &[1], &[3, 0x0C], &[3, 4, 0], &[2, 0, 0]] {
            for limit in [0, 65, 1 << 32, u64::MAX] {
                let answer = calls.open(sheet, limit);
                assert_eq!((answer.number, answer.place), (6, 0));
                assert_eq!(answer.state, WorkState::BLANK);
            }
        }
    }
}

#[test]
fn the_longest_sheet() {
    let mut sheet = Sheet::plain(64);
    for record in &mut sheet.records {
        record.next = Some(u64::MAX);
        record.previous = Some(u64::MAX);
        record.fixed = Some(1);
    }
    let mut bytes = sheet.bytes();
    assert_eq!(bytes.len(), 1_153);
    for calls in ALL {
        assert_eq!(calls.open(&bytes, 64).state.legs(), 63);
    }
    bytes.push(0);
    for calls in ALL {
        let answer = calls.open(&bytes, 64);
        assert_eq!((answer.number, answer.place), (5, 1_153));
    }
}
