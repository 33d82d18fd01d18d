//! Cut steps among other calls. The must-drive roads are some of a round, and the list check
//! says yes to it all the time.

use super::{cut_until_still, drawn, must_of, open};
use crate::cut::{cut, two_way};
use crate::fast;
use crate::gen::{random_round, Xorshift};
use crate::program::LIMIT;
use crate::script::Script;
use crate::state::{Rows, WorkState};
use crate::table::{Leg, LegTable};

pub fn add(script: &mut Script) {
    let mut rng = Xorshift::new(1704);
    for n in [5, 5, 6, 6, 7, 7, 8, 8, 9, 10, 12] {
        let (table, round, must) = drawn_round(&mut rng, n);
        before_and_after_runs(script, &table, &round, &must);
    }
}

/// A two-way table, a round of it and some of its roads.
fn drawn_round(rng: &mut Xorshift, n: usize) -> (LegTable, Vec<usize>, Rows) {
    loop {
        let mut table = drawn::table(rng, n);
        let round = random_round(rng, n);
        let driven: Vec<Leg> = (1..).zip(round.iter().copied()).collect();
        for &(i, j) in &driven {
            table.add(i, j);
            table.add(j, i);
        }
        let some: Vec<Leg> = driven.into_iter().filter(|_| rng.percent(35)).collect();
        let must = must_of(&some);
        if changes_after_run(&table, &must) {
            return (table, round, must);
        }
    }
}

/// Does a step change something, is the table two-way after a run, and does a step change
/// something again?
fn changes_after_run(table: &LegTable, must: &Rows) -> bool {
    let first = cut(WorkState::opened(table, LIMIT), must);
    let ran = fast::run(first.state, u32::MAX).state;
    let next = cut(ran, &first.must);
    let struck = first.removed > 0 && ran.rows != first.state.rows;
    struck && two_way(&ran.table()) && (next.removed > 0 || next.must != first.must)
}

/// By hand from the start and from a stable state, then amid a cycle.
fn before_and_after_runs(script: &mut Script, table: &LegTable, round: &[usize], must: &Rows) {
    let list: Vec<u8> = round.iter().map(|&next| next as u8).collect();
    let opened = open(script, table);
    script.cut(must);
    script.list(&list);
    let first = cut(opened, must);
    script.run(u32::MAX);
    let ran = fast::run(first.state, u32::MAX).state;
    cut_until_still(script, ran, &first.must);
    script.pass(1);
    script.cut(must);
    script.list(&list);
    open(script, table);
    script.run(3);
    script.cut(must);
    script.run(2);
    script.chain();
    script.cut(must);
    script.first_round(u32::MAX, list.len() as u8);
    script.list(&list);
}
