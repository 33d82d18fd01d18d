//! Openings: the quoted sheets, every refusal, the order of the checks.

use super::WIDE_NUMBERS;
use crate::gen::{any_table, damaged, Record, Sheet, Xorshift};
use crate::paper::NINE_LEGS;
use crate::script::Script;

const LIMIT: u64 = 64;

pub fn add(script: &mut Script) {
    for sheet in quoted().iter().chain(&check_order()).chain(&special_sets()) {
        script.open(LIMIT, sheet);
    }
    prefixes(script);
    unknown_bits(script);
    stray_stations(script);
    overhangs(script);
    limits(script);
    longest(script);
    random_sheets(script);
}

/// Eight bytes of a set.
fn set(word: u64) -> Vec<u8> {
    word.to_le_bytes().to_vec()
}

pub fn quoted() -> Vec<Vec<u8>> {
    vec![
        vec![],
        vec![0x01],
        vec![0x41],
        vec![0x40],
        vec![0x03, 0x04, 0x00],
        vec![0x02, 0x00, 0x00, 0x00],
        vec![0x02, 0x01, 0x04],
        [vec![0x02, 0x01], set(4), vec![0x00]].concat(),
        vec![0x03, 0x0C],
        vec![0x03, 0x00, 0x00, 0x00],
        vec![0x02, 0x00, 0x00],
        vec![0x02, 0x04, 0x01, 0x00],
        NINE_LEGS.to_vec(),
    ]
}

/// Sheets with more than one fault.
fn check_order() -> Vec<Vec<u8>> {
    vec![
        // The count before everything else.
        vec![0x00],
        vec![0xFF],
        vec![0x01, 0x08],
        vec![0x41, 0x00, 0x00],
        // An unknown bit before any field: cut, stray or sound.
        vec![0x02, 0x0F],
        [vec![0x02, 0x09], set(u64::MAX), vec![0x00]].concat(),
        [vec![0x02, 0x89], set(2), vec![0x00]].concat(),
        [vec![0x02, 0x00, 0x17], set(1), set(1), vec![0x01]].concat(),
        // Cut before stray within a field.
        vec![0x02, 0x01, 0xFF, 0xFF],
        vec![0x02, 0x02, 0x00, 0x00, 0x00, 0x00, 0x00, 0x00, 0xFF],
        vec![0x02, 0x04],
        // Next, previous, fixed, in this order.
        [vec![0x02, 0x07], set(4), set(4), vec![0x00, 0x00]].concat(),
        [vec![0x02, 0x07], set(2), set(4), vec![0x00, 0x00]].concat(),
        [vec![0x02, 0x07], set(2), set(2), vec![0x00, 0x00]].concat(),
        [vec![0x02, 0x07], set(4), vec![0x00]].concat(),
        [vec![0x02, 0x07], set(2), vec![0xFF]].concat(),
        [vec![0x02, 0x07], set(2), set(4)].concat(),
        [vec![0x02, 0x07], set(2), set(2)].concat(),
        [vec![0x02, 0x05], set(2), vec![0x03, 0x00]].concat(),
        [vec![0x02, 0x06], set(8), vec![0x03, 0x00]].concat(),
        // Records in their order.
        vec![0x03, 0x04, 0x04, 0x08, 0x00],
        vec![0x03, 0x08, 0x04, 0x00, 0x00],
        vec![0x03, 0x04, 0x02, 0x08],
        vec![0x03, 0x04, 0x02, 0x04],
        // An overhang last.
        vec![0x02, 0x00, 0x04, 0x00, 0x00],
        vec![0x02, 0x00, 0x10, 0x00],
        vec![0x02, 0x04, 0x03, 0x00, 0x00],
        vec![0x02, 0x00, 0x00, 0xFF, 0xFF, 0xFF],
    ]
}

/// Own bits, stations fixed to themselves, sets of none, previous sets.
fn special_sets() -> Vec<Vec<u8>> {
    let next_and_previous = |next, previous| Record {
        next: Some(next),
        previous: Some(previous),
        fixed: None,
    };
    let mut sheets = Vec::new();
    for (next, previous) in [
        (7, 7),
        (0, 7),
        (7, 0),
        (0, 0),
        (1, 7),
        (7, 1),
        (5, 3),
        (6, 6),
    ] {
        let mut sheet = Sheet::plain(3);
        sheet.records[0] = next_and_previous(next, previous);
        sheets.push(sheet.bytes());
        sheet.records = vec![next_and_previous(next, previous); 3];
        sheets.push(sheet.bytes());
    }
    for station in 1..=4 {
        let mut sheet = Sheet::plain(4);
        sheet.records[2].fixed = Some(station);
        sheets.push(sheet.bytes());
        // Fixed to a station that another field forbids.
        sheet.records[2].next = Some(0b0110);
        sheets.push(sheet.bytes());
        sheet.records[1].previous = Some(0b1001);
        sheets.push(sheet.bytes());
    }
    let mut rng = Xorshift::new(101);
    for n in [2, 3, 5, 8, 13] {
        sheets.push(Sheet::of_by_previous(&any_table(&mut rng, n)).bytes());
    }
    sheets
}

/// A cut at every place of a sheet with single fields and of one with all.
fn prefixes(script: &mut Script) {
    let all_fields = Record {
        next: Some(2),
        previous: Some(3),
        fixed: Some(2),
    };
    let mut sheet = Sheet::plain(2);
    sheet.records[1] = all_fields;
    for bytes in [NINE_LEGS.to_vec(), sheet.bytes()] {
        for length in 0..=bytes.len() {
            script.open(LIMIT, &bytes[..length]);
        }
    }
}

fn unknown_bits(script: &mut Script) {
    for bit in 3..8 {
        for record in 0..4 {
            let mut bytes = Sheet::plain(4).bytes();
            bytes[1 + record] = 1 << bit;
            script.open(LIMIT, &bytes);
        }
    }
}

fn stray_stations(script: &mut Script) {
    for n in [2, 3, 5, 63] {
        for at in [0, n - 1] {
            for stray in [n, 63] {
                let mut sheet = Sheet::plain(n);
                sheet.records[at].next = Some(1 << stray);
                script.open(LIMIT, &sheet.bytes());
                sheet.records[at].next = Some(1);
                sheet.records[at].previous = Some(1 | 1 << stray);
                script.open(LIMIT, &sheet.bytes());
            }
        }
    }
    for n in [2, 5, 63, 64] {
        for at in [0, n - 1] {
            for station in [0, n as u8 + 1, 65, 128, 255] {
                let mut sheet = Sheet::plain(n);
                sheet.records[at].fixed = Some(station);
                script.open(LIMIT, &sheet.bytes());
            }
        }
    }
}

fn overhangs(script: &mut Script) {
    for n in [2, 7, 64] {
        for extra in [1, 2, 300] {
            let mut bytes = Sheet::plain(n).bytes();
            bytes.extend(vec![0; extra]);
            script.open(LIMIT, &bytes);
        }
    }
    script.open(LIMIT, &[&NINE_LEGS[..], &[0]].concat());
}

/// A bad limit is found before any fault of the sheet.
fn limits(script: &mut Script) {
    let sheets: [&[u8]; 7] = [
        &[0x03, 0x00, 0x00, 0x00],
        &[],
        &[0x01],
        &[0x03, 0x0C],
        &[0x03, 0x04, 0x00],
        &[0x02, 0x00, 0x00, 0x00],
        &NINE_LEGS,
    ];
    for sheet in sheets {
        for limit in [0, 1, 2, 63, 64, 65].into_iter().chain(WIDE_NUMBERS) {
            script.open(limit, sheet);
        }
    }
}

fn longest(script: &mut Script) {
    let bytes = Sheet::longest().bytes();
    script.open(LIMIT, &bytes);
    script.open(LIMIT, &[&bytes[..], &[0]].concat());
    script.open(LIMIT, &bytes[..bytes.len() - 1]);
    script.open(LIMIT, &bytes[..bytes.len() - 2]);
}

fn random_sheets(script: &mut Script) {
    let mut rng = Xorshift::new(102);
    for n in (2..=16).chain([31, 32, 33, 63, 64]) {
        for _ in 0..if n <= 16 { 3 } else { 1 } {
            script.open(LIMIT, &Sheet::random(&mut rng, n).bytes());
        }
    }
    for number in 1..=5 {
        for _ in 0..15 {
            let n = rng.between(2, 9);
            let sheet = Sheet::random(&mut rng, n);
            script.open(LIMIT, &damaged(&mut rng, &sheet, number).bytes);
        }
    }
}
