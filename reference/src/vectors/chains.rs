//! Chain steps: loops, chains of every length, by hand on states of every kind,
//! and in the cycle.

use super::states_of;
use crate::gen::{all_tables, chain_among, loop_among, reversed, ring, Family, Sheet, Xorshift};
use crate::script::Script;
use crate::table::{Leg, LegTable};

pub fn add(script: &mut Script) {
    for table in named_tables() {
        chain_twice(script, &table);
        chain_twice(script, &reversed(&table));
    }
    for n in [2, 3] {
        for table in all_tables(n) {
            chain_twice(script, &table);
        }
    }
    by_hand(script);
    random_tables(script);
    in_the_cycle(script);
}

fn open_short(script: &mut Script, table: &LegTable) {
    script.open(64, &Sheet::short(table).bytes());
}

/// The second step sees what the first has left.
fn chain_twice(script: &mut Script, table: &LegTable) {
    open_short(script, table);
    script.chain();
    script.chain();
}

/// The table with some rows replaced.
fn with_rows(base: &LegTable, rows: &[(usize, &[usize])]) -> LegTable {
    let replaced = |&(i, _): &Leg| rows.iter().any(|&(station, _)| station == i);
    let kept = base.legs().into_iter().filter(|leg| !replaced(leg));
    let new = rows
        .iter()
        .flat_map(|&(i, next)| next.iter().map(move |&j| (i, j)));
    LegTable::from_legs(base.n(), kept.chain(new))
}

fn named_tables() -> Vec<LegTable> {
    let full = LegTable::full;
    vec![
        // What the step was asked for: a loop of four among thirty, and the leg
        // that would close it.
        loop_among(4, 30),
        chain_among(4, 30),
        // Two stations with the same only leg out; turned round, two with the
        // same only leg in.
        with_rows(&full(5), &[(1, &[3]), (2, &[3])]),
        // A loop over all stations, plain and with legs across.
        ring(3),
        ring(64),
        with_rows(&ring(6), &[(1, &[2, 4])]),
        with_rows(&ring(7), &[(1, &[2, 4]), (4, &[5, 2])]),
        // A chain over all stations: the leg 6→1 that closes it stays.
        with_rows(&ring(6), &[(6, &[1, 3]), (4, &[5, 1])]),
        chain_among(5, 6),
        // Chains of one leg: by the only leg out, by the only leg in, and one
        // whose closing leg does not stand.
        with_rows(&full(4), &[(1, &[2])]),
        with_rows(&full(4), &[(1, &[2]), (2, &[3, 4])]),
        with_rows(&full(5), &[(1, &[2]), (4, &[3])]),
        // Chains that share no station, struck together.
        with_rows(
            &full(12),
            &[
                (1, &[2]),
                (2, &[3]),
                (5, &[6]),
                (9, &[8]),
                (8, &[7]),
                (7, &[12]),
            ],
        ),
        several_pairs(),
        // A loop beside a chain, and two loops.
        with_rows(&loop_among(3, 9), &[(5, &[6])]),
        with_rows(&loop_among(3, 9), &[(5, &[6]), (6, &[5])]),
        // Rows without a leg say nothing.
        with_rows(&full(8), &[(1, &[2]), (5, &[])]),
        with_rows(&full(8), &[(1, &[2]), (2, &[])]),
        with_rows(&loop_among(3, 8), &[(7, &[])]),
        LegTable::empty(4),
        full(64),
        // The most stations.
        chain_of_63(),
        chain_among(63, 64),
        with_rows(&ring(64), &[(64, &[1, 3]), (62, &[63, 1])]),
        loop_among(63, 64),
    ]
}

/// 32 chains of one leg each, with nothing but their closing legs and the legs
/// from their ends to their starts.
fn several_pairs() -> LegTable {
    let odd = || (1..=64).step_by(2);
    let along = odd().map(|i| (i, i + 1));
    let back = odd().flat_map(|i| odd().map(move |j| (i + 1, j)));
    LegTable::from_legs(64, along.chain(back))
}

/// A chain over all stations but the last, by only legs out and by only legs in;
/// the leg 63→1 closes it.
fn chain_of_63() -> LegTable {
    let along = (1..63).map(|i| (i, i + 1));
    let last = [(63, 1), (63, 64), (5, 64), (64, 1), (64, 41)];
    LegTable::from_legs(64, along.chain(last))
}

/// Legs that go, none, and neither, under every end.
fn by_hand(script: &mut Script) {
    for table in [chain_among(4, 9), loop_among(4, 9), ring(4)] {
        for state in states_of(&table) {
            script.work(&state);
            script.chain();
            script.chain();
        }
    }
}

fn random_tables(script: &mut Script) {
    let mut rng = Xorshift::new(601);
    for family in Family::FOR_CHAINS {
        for n in [4, 4, 5, 5, 6, 6, 7, 8, 9, 10, 12, 16, 33, 63, 64] {
            chain_twice(script, &family.table(&mut rng, n));
        }
    }
}

/// Tables on which the passes of a cycle go wrong if they take the ends of a leg
/// that its chain step struck for neighbours still.
fn no_neighbours_any_more() -> [LegTable; 2] {
    [
        with_rows(
            &LegTable::empty(5),
            &[
                (1, &[5]),
                (2, &[3, 4]),
                (3, &[2]),
                (4, &[1, 2, 5]),
                (5, &[1, 2, 3, 4]),
            ],
        ),
        with_rows(
            &LegTable::empty(8),
            &[
                (1, &[8]),
                (2, &[3]),
                (3, &[7]),
                (4, &[1, 2, 5]),
                (5, &[6]),
                (6, &[2, 4, 5]),
                (7, &[1, 2, 4, 5]),
                (8, &[1, 2, 4]),
            ],
        ),
    ]
}

/// Runs that stop before and after the chain step, at the last place and behind
/// it, and whole ones.
fn in_the_cycle(script: &mut Script) {
    let mut rng = Xorshift::new(602);
    let mut tables = vec![chain_among(4, 8), loop_among(4, 8), chain_among(4, 30)];
    tables.extend(no_neighbours_any_more());
    for family in Family::FOR_CHAINS {
        tables.extend([5, 7, 11, 24].map(|n| family.table(&mut rng, n)));
    }
    for table in tables {
        let n = table.n() as u32;
        for budgets in [&[1, 1, 1, n, 1][..], &[n + 1, 1, 1, u32::MAX], &[u32::MAX]] {
            open_short(script, &table);
            for &budget in budgets {
                script.run(budget);
            }
        }
    }
}
