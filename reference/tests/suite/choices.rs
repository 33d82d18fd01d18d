//! Choices found by matching against choices tried one by one.

use std::collections::BTreeSet;

use reference::choices::{literal, Direction, SeparatorGraph};
use reference::gen::{any_table, Xorshift};
use reference::graph::components;
use reference::LegTable;

/// Any stations, or the neighbours of one station if they are few.
fn random_separator(rng: &mut Xorshift, table: &LegTable) -> BTreeSet<usize> {
    let n = table.n();
    let neighbours = table.neighbours(rng.between(1, n));
    if rng.percent(60) && (2..=4).contains(&neighbours.len()) {
        return neighbours;
    }
    let size = rng.between(1, (n - 1).min(4));
    rng.order(n).into_iter().take(size).collect()
}

fn assert_same(table: &LegTable, separator: &BTreeSet<usize>) -> SeparatorGraph {
    let groups = components(table, separator);
    let graph = SeparatorGraph::new(table, separator, &groups);
    for direction in Direction::BOTH {
        assert_eq!(
            graph.legs_taken_bare(direction),
            literal::legs_taken_bare(&graph, direction),
            "{direction:?} on {separator:?} of {table:?}"
        );
    }
    graph
}

/// Counts of the three answers, to show that the cases cover them all.
#[derive(Default)]
struct Answers {
    none: usize,
    some_struck: usize,
    all_kept: usize,
}

impl Answers {
    fn count(&mut self, table: &LegTable, graph: &SeparatorGraph) {
        let inside =
            |(i, j): &(usize, usize)| graph.separator.contains(i) && graph.separator.contains(j);
        let legs = table.legs().into_iter().filter(inside).count();
        match graph.bare_legs() {
            None => self.none += 1,
            Some(kept) if kept.len() < legs => self.some_struck += 1,
            Some(_) => self.all_kept += 1,
        }
    }
}

#[test]
fn matching_equals_trying_every_choice() {
    let mut rng = Xorshift::new(1);
    let mut answers = Answers::default();
    for _ in 0..12_000 {
        let n = rng.between(2, 9);
        let table = any_table(&mut rng, n);
        let separator = random_separator(&mut rng, &table);
        let graph = assert_same(&table, &separator);
        answers.count(&table, &graph);
    }
    assert!(answers.none > 500);
    assert!(answers.some_struck > 500);
    assert!(answers.all_kept > 500);
}

#[test]
fn matching_equals_trying_every_choice_on_all_tables_of_three() {
    for code in 0..64 {
        let kept = LegTable::full(3).legs().into_iter().enumerate();
        let legs = kept.filter(|(at, _)| code >> at & 1 == 1);
        let table = LegTable::from_legs(3, legs.map(|(_, leg)| leg));
        for separator in [&[1][..], &[2], &[1, 2], &[1, 3], &[2, 3]] {
            assert_same(&table, &separator.iter().copied().collect());
        }
    }
}

#[test]
fn lone_station_has_no_choice() {
    let table = LegTable::full(3);
    let graph = assert_same(&table, &BTreeSet::from([2]));
    assert_eq!(graph.bare_legs(), None);
}
