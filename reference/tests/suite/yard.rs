//! What has gone wrong in the yard: each fault is built here from the parts of
//! the plain pass, shown to fail, and shown to be absent from the calls.

use std::collections::BTreeSet;

use reference::choices::{Direction, Mark, SeparatorGraph};
use reference::gen::ring;
use reference::graph::{components, levels};
use reference::hand::Verdict;
use reference::paper::{butterfly, greedy_trap};
use reference::pass::strike_by;
use reference::rounds::rounds;
use reference::{End, LegTable};

use crate::{opened, removed_legs, ALL};

fn stations(numbers: &[usize]) -> BTreeSet<usize> {
    numbers.iter().copied().collect()
}

/// The filter of one separator with components found some other way.
fn filter_with(
    table: &mut LegTable,
    separator: &[usize],
    components: &[BTreeSet<usize>],
) -> Verdict {
    let graph = SeparatorGraph::new(table, &stations(separator), components);
    strike_by(table, &graph)
}

fn assert_pass_keeps_all(table: &LegTable, seed: u64) {
    for calls in ALL {
        let state = opened(table);
        let passed = calls.pass(state, seed);
        assert_eq!((passed.removed, passed.state), (0, state));
    }
}

#[test]
fn levels_by_outgoing_legs_only() {
    let mut table = ring(4);
    let sound = [stations(&[1]), stations(&[2, 4]), stations(&[3])];
    assert_eq!(levels(&table, 1), sound);

    // By outgoing legs level 1 is {2}, which leaves one group.
    let groups = components(&table, &stations(&[2]));
    assert_eq!(groups, [stations(&[1, 3, 4])]);
    assert_eq!(filter_with(&mut table, &[2], &groups), Verdict::None);

    assert_pass_keeps_all(&ring(4), 1);
}

#[test]
fn strongly_connected_groups_as_components() {
    let mut table = ring(5);
    let separator = stations(&[2, 5]);
    let sound = [stations(&[1]), stations(&[3, 4])];
    assert_eq!(components(&table, &separator), sound);

    let strong = [stations(&[1]), stations(&[3]), stations(&[4])];
    assert_eq!(filter_with(&mut table, &[2, 5], &strong), Verdict::None);

    assert_pass_keeps_all(&ring(5), 1);
}

#[test]
fn mark_on_a_pair_of_one_station() {
    let mut table = butterfly();
    let separator = stations(&[2, 3]);
    let groups = components(&table, &separator);
    assert_eq!(groups, [stations(&[1]), stations(&[4, 5])]);

    let mut graph = SeparatorGraph::new(&table, &separator, &groups);
    assert_eq!(graph.bare_legs(), None);
    graph
        .marks
        .insert((3, 3), BTreeSet::from([Mark::Component(1)]));
    let before = opened(&table);
    assert_eq!(strike_by(&mut table, &graph), Verdict::Undecided);
    assert_eq!(removed_legs(&before, &opened(&table)), [(2, 3), (3, 2)]);

    for calls in ALL {
        let passed = calls.pass(before, 1);
        assert_eq!((passed.removed, passed.state.end), (0, End::None));
        assert_eq!(passed.state.rows, before.rows);
    }
}

/// Hands each component to the first station that offers it and is free.
fn greedy_succeeds(graph: &SeparatorGraph, direction: Direction) -> bool {
    let mut offers = graph.offers(direction);
    (0..graph.component_count).all(|component| {
        let fitting = offers
            .iter()
            .find(|(_, marks)| marks.contains(&Mark::Component(component)));
        match fitting.map(|(&station, _)| station) {
            Some(station) => offers.remove(&station).is_some(),
            None => false,
        }
    })
}

#[test]
fn components_handed_out_greedily() {
    let table = greedy_trap();
    assert_eq!(rounds(&table), [vec![2, 4, 1, 3]]);

    let separator = stations(&[2, 3]);
    assert_eq!(levels(&table, 1)[1], separator);
    let groups = components(&table, &separator);
    let graph = SeparatorGraph::new(&table, &separator, &groups);
    assert!(!greedy_succeeds(&graph, Direction::Out));

    assert_pass_keeps_all(&table, 1);
}
