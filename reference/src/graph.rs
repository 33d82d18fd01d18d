//! Levels and components of a leg table, both by neighbours, and the ways inside a
//! component, along its legs.

use std::collections::BTreeSet;

use crate::table::LegTable;

/// The levels from a seed; level 0 is the seed alone, and none is empty.
pub fn levels(table: &LegTable, seed: usize) -> Vec<BTreeSet<usize>> {
    let mut reached = BTreeSet::from([seed]);
    let mut levels = Vec::new();
    let mut level = reached.clone();
    while !level.is_empty() {
        let next: BTreeSet<usize> = level
            .iter()
            .flat_map(|&i| table.neighbours(i))
            .filter(|j| !reached.contains(j))
            .collect();
        reached.extend(&next);
        levels.push(level);
        level = next;
    }
    levels
}

/// The stations in no level.
pub fn unreached(table: &LegTable, levels: &[BTreeSet<usize>]) -> BTreeSet<usize> {
    let in_no_level = |i: &usize| !levels.iter().any(|level| level.contains(i));
    table.stations().filter(in_no_level).collect()
}

/// The levels between the first and the last.
pub fn inner(levels: &[BTreeSet<usize>]) -> &[BTreeSet<usize>] {
    levels.get(1..levels.len() - 1).unwrap_or_default()
}

/// The connected groups of all stations outside the separator, by their lowest
/// station.
pub fn components(table: &LegTable, separator: &BTreeSet<usize>) -> Vec<BTreeSet<usize>> {
    let mut seen = separator.clone();
    let mut components = Vec::new();
    for start in table.stations() {
        if !seen.contains(&start) {
            let component = search(table, separator, start);
            seen.extend(&component);
            components.push(component);
        }
    }
    components
}

/// Every station that a path outside the separator joins to the start.
fn search(table: &LegTable, separator: &BTreeSet<usize>, start: usize) -> BTreeSet<usize> {
    let mut found = BTreeSet::from([start]);
    let mut waiting = vec![start];
    while let Some(i) = waiting.pop() {
        for j in table.neighbours(i) {
            if !separator.contains(&j) && found.insert(j) {
                waiting.push(j);
            }
        }
    }
    found
}

/// The stations of a component that can be reached from one of them by legs inside
/// it; each reaches itself.
pub fn reached_inside(
    table: &LegTable,
    component: &BTreeSet<usize>,
    from: usize,
) -> BTreeSet<usize> {
    let mut reached = BTreeSet::from([from]);
    let mut waiting = vec![from];
    while let Some(i) = waiting.pop() {
        for &j in table.successors(i) {
            if component.contains(&j) && reached.insert(j) {
                waiting.push(j);
            }
        }
    }
    reached
}
