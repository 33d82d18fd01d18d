//! Station lines into buffers of every interesting length.

use super::open_table;
use crate::gen::{random, ring, Xorshift};
use crate::lines::station_lines;
use crate::script::{Script, LONGEST_REPORT};
use crate::table::LegTable;

pub fn add(script: &mut Script) {
    let mut rng = Xorshift::new(201);
    for n in [2, 9, 10, 64] {
        let sparse = random(&mut rng, n, 15);
        for table in [LegTable::full(n), ring(n), LegTable::empty(n), sparse] {
            open_table(script, 64, &table);
            let length = station_lines(&table).len();
            for buffer in [length, length - 1, length + 1, length + 20, 0, 1] {
                script.report(buffer);
            }
        }
    }
    longest_text(script);
    ended_states(script);
}

fn longest_text(script: &mut Script) {
    open_table(script, 64, &LegTable::full(64));
    script.report(usize::from(LONGEST_REPORT));
}

/// A report asks for a good state and not for an open one.
fn ended_states(script: &mut Script) {
    for sheet in [&[3, 0, 0, 0][..], &[2, 4, 1, 0][..]] {
        script.open(64, sheet);
        script.run(u32::MAX);
        script.report(40);
        script.report(5);
    }
}
