//! The fast calls against the plain ones on sequences of calls.

use reference::gen::{any_table, damaged, Sheet, Xorshift};
use reference::{Calls, End, LegTable, Plain, WorkState};

use crate::FAST;

/// Makes one random call with all and hands back the state that follows.
fn call_all(rng: &mut Xorshift, state: WorkState) -> WorkState {
    let n = state.n.clamp(1, 64) as usize;
    match rng.below(8) {
        0 => {
            let swept = Plain.sweep(state);
            for fast in FAST {
                assert_eq!(fast.sweep(state), swept);
            }
            swept.state
        }
        1 | 2 => {
            let chained = Plain.chain(state);
            for fast in FAST {
                assert_eq!(fast.chain(state), chained, "chain step on {state:?}");
            }
            chained.state
        }
        3..=5 => {
            let seed = rng.below(n + 2) as u64;
            let passed = Plain.pass(state, seed);
            for fast in FAST {
                assert_eq!(fast.pass(state, seed), passed, "seed {seed} on {state:?}");
            }
            passed.state
        }
        6 => {
            let budget = rng.below(2 * n) as u32;
            let ran = Plain.run(state, budget);
            for fast in FAST {
                assert_eq!(fast.run(state, budget), ran, "budget {budget} on {state:?}");
            }
            ran.state
        }
        _ => {
            list_all(rng, &state);
            report_all(rng, &state);
            write_all(rng, &state);
            state
        }
    }
}

fn list_all(rng: &mut Xorshift, state: &WorkState) {
    let n = state.n.clamp(1, 64) as usize;
    let mut list = vec![0; n];
    let order = rng.order(n);
    for (at, &station) in order.iter().enumerate() {
        list[station - 1] = order[(at + 1) % n] as u8;
    }
    if rng.percent(30) {
        list[rng.below(n)] = rng.below(n + 2) as u8;
    }
    list.truncate(rng.pick(&[n, n, n, n - 1]));
    let checked = Plain.list_check(state, &list);
    for fast in FAST {
        assert_eq!(fast.list_check(state, &list), checked);
    }
}

fn report_all(rng: &mut Xorshift, state: &WorkState) {
    let mut plain = vec![b'.'; rng.below(2_000)];
    let lent = plain.clone();
    let reported = Plain.report(state, &mut plain);
    for fast in FAST {
        let mut buffer = lent.clone();
        assert_eq!(fast.report(state, &mut buffer), reported);
        assert_eq!(plain, buffer);
    }
}

fn write_all(rng: &mut Xorshift, state: &WorkState) {
    let mut plain = vec![b'.'; rng.below(600)];
    let lent = plain.clone();
    let written = Plain.write(state, &mut plain);
    for fast in FAST {
        let mut buffer = lent.clone();
        assert_eq!(fast.write(state, &mut buffer), written);
        assert_eq!(plain, buffer);
    }
}

fn state_of(rng: &mut Xorshift, table: &LegTable) -> WorkState {
    let mut state = WorkState::opened(table, rng.pick(&[1, 2, 3, 5, 8, 64]));
    if rng.percent(30) {
        state.place = rng.below(table.n() + 2) as u64;
        state.mark = rng.percent(50);
        state.end = rng.pick(&[End::Open, End::Stable, End::None]);
    }
    state
}

fn sequences(seed: u64, count: usize, least: usize, most: usize, calls: usize) {
    let mut rng = Xorshift::new(seed);
    for _ in 0..count {
        let n = rng.between(least, most);
        let table = any_table(&mut rng, n);
        let mut state = state_of(&mut rng, &table);
        for _ in 0..calls {
            state = call_all(&mut rng, state);
        }
    }
}

#[test]
fn sequences_on_small_tables() {
    sequences(11, 12_000, 2, 8, 8);
}

#[test]
fn sequences_on_medium_tables() {
    sequences(12, 800, 9, 24, 8);
}

#[test]
fn sequences_on_large_tables() {
    sequences(13, 60, 25, 64, 5);
}

#[test]
fn damaged_states() {
    let mut rng = Xorshift::new(14);
    for _ in 0..2_000 {
        let n = rng.between(2, 64);
        let table = any_table(&mut rng, n);
        let mut state = state_of(&mut rng, &table);
        match rng.below(5) {
            0 => state.n = rng.word() >> rng.below(64),
            1 => state.limit = rng.word() >> rng.below(64),
            2 => state.place = rng.word() >> rng.below(64),
            _ => state.rows[rng.below(64)] ^= 1 << rng.below(64),
        }
        let bad = Plain.bad(&state);
        assert!(FAST.iter().all(|fast| fast.bad(&state) == bad));
        if bad {
            call_all(&mut rng, state);
        }
    }
}

#[test]
fn openings() {
    let mut rng = Xorshift::new(15);
    for _ in 0..4_000 {
        let n = rng.between(2, 64);
        let sheet = Sheet::random(&mut rng, n);
        let mut bytes = sheet.bytes();
        if rng.percent(60) {
            let number = rng.between(1, 5) as u8;
            bytes = damaged(&mut rng, &sheet, number).bytes;
        }
        // A second fault, for the order of the checks.
        if rng.percent(30) && !bytes.is_empty() {
            let at = rng.below(bytes.len());
            bytes[at] ^= 1 << rng.below(8);
        }
        let limit = rng.below(70) as u64;
        let opened = Plain.open(&bytes, limit);
        for fast in FAST {
            assert_eq!(fast.open(&bytes, limit), opened);
        }
    }
}
