//! All rounds of a small table, by trying every path from station 1.

use std::collections::BTreeSet;

use crate::table::{Leg, LegTable};

/// Every round as its list of successors: entry i−1 follows station i.
pub fn rounds(table: &LegTable) -> Vec<Vec<usize>> {
    let mut found = Vec::new();
    extend(table, &mut vec![1], &mut found);
    found
}

fn extend(table: &LegTable, path: &mut Vec<usize>, found: &mut Vec<Vec<usize>>) {
    let last = path[path.len() - 1];
    if path.len() == table.n() {
        if table.has(last, 1) {
            found.push(successor_list(path));
        }
        return;
    }
    for &next in table.successors(last) {
        if !path.contains(&next) {
            path.push(next);
            extend(table, path, found);
            path.pop();
        }
    }
}

fn successor_list(path: &[usize]) -> Vec<usize> {
    let mut successors = vec![0; path.len()];
    for (at, &station) in path.iter().enumerate() {
        successors[station - 1] = path[(at + 1) % path.len()];
    }
    successors
}

/// The legs that some round of the table drives.
pub fn drivable_legs(table: &LegTable) -> BTreeSet<Leg> {
    rounds(table)
        .iter()
        .flat_map(|successors| successors.iter().enumerate())
        .map(|(at, &next)| (at + 1, next))
        .collect()
}
