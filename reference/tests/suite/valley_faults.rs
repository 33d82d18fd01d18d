//! The comparison finds what may go wrong with the ways inside a component.

use std::collections::BTreeSet;

use reference::choices::{Direction, SeparatorGraph};
use reference::compare::compare_sheet;
use reference::gen::reversed;
use reference::graph::{components, inner, levels, reached_inside, unreached};
use reference::hand::Verdict;
use reference::pass::pass_by;
use reference::table::Leg;
use reference::{vectors, Calls, LegTable, Plain};

use crate::other_pass::OtherPass;
use crate::scripts::answers;

type Stations = BTreeSet<usize>;

#[derive(Clone, Copy, Debug)]
enum Fault {
    /// The mark as it stood before.
    NoWay,
    AgainstTheLegs,
    /// The way out has to be another station than the way in.
    OneStationLeftOut,
    /// The way may lead through stations outside the component.
    WaysOutside,
    /// It has one leg at most.
    OneLeg,
    StrongComponents,
    /// Where the lowest station leads to all others, each is taken to do so.
    LowestLeadsToAll,
    /// Of the ways in that a station has, those above its lowest are left out.
    LowestWayIn,
    /// The other choices read the mark as it stood before.
    OnlyOneDirection(Direction),
    /// Ways by the legs that stood at the start of the pass.
    FirstLegs,
}

/// Faults with the number of sheets that suffice to find them.
const FAULTS: [(Fault, u64); 11] = [
    (Fault::NoWay, 40),
    (Fault::AgainstTheLegs, 20),
    (Fault::OneStationLeftOut, 20),
    (Fault::WaysOutside, 200),
    (Fault::OneLeg, 200),
    (Fault::StrongComponents, 20),
    (Fault::LowestLeadsToAll, 200),
    (Fault::LowestWayIn, 200),
    (Fault::OnlyOneDirection(Direction::Out), 200),
    (Fault::OnlyOneDirection(Direction::In), 200),
    (Fault::FirstLegs, 2_000),
];

impl Fault {
    fn pass(self, table: &mut LegTable, seed: usize, limit: usize) -> Verdict {
        if let Fault::OnlyOneDirection(direction) = self {
            return pass_by_one_direction(direction, table, seed, limit);
        }
        let first = table.clone();
        pass_by(table, seed, limit, |table, level| match self {
            Fault::FirstLegs => marked_by(&first, table, level),
            _ => self.marked(table, level),
        })
    }

    fn marked(self, table: &LegTable, level: &Stations) -> SeparatorGraph {
        let groups = match self {
            Fault::StrongComponents => strong_components(table, level),
            _ => components(table, level),
        };
        let lowest_in = |group: &Stations, c: usize| {
            let enters = |i: &&usize| table.has(**i, c);
            let lowest = |i: &usize| group.iter().find(|&&c| table.has(*i, c)) == Some(&c);
            level.iter().filter(enters).any(lowest)
        };
        SeparatorGraph::by_ways(table, level, &groups, |table, group, c| {
            let mut reached = reached_inside(table, group, c);
            match self {
                Fault::NoWay => reached = group.clone(),
                Fault::AgainstTheLegs => reached = reached_inside(&reversed(table), group, c),
                Fault::OneStationLeftOut => _ = reached.remove(&c),
                Fault::WaysOutside => {
                    let all = table.stations().collect();
                    reached = &reached_inside(table, &all, c) & group;
                }
                Fault::OneLeg => reached.retain(|&d| d == c || table.has(c, d)),
                Fault::LowestLeadsToAll => {
                    let lowest = group.first().map(|&low| reached_inside(table, group, low));
                    reached = lowest.filter(|all| all == group).unwrap_or(reached);
                }
                Fault::LowestWayIn if !lowest_in(group, c) => reached.clear(),
                _ => {}
            }
            reached
        })
    }
}

/// Marks by the ways of another table.
fn marked_by(other: &LegTable, table: &LegTable, level: &Stations) -> SeparatorGraph {
    let groups = components(table, level);
    SeparatorGraph::by_ways(table, level, &groups, |_, group, c| {
        reached_inside(other, group, c)
    })
}

/// The groups of stations that lead to each other by legs outside the separator.
fn strong_components(table: &LegTable, separator: &Stations) -> Vec<Stations> {
    let mut strong: BTreeSet<Stations> = BTreeSet::new();
    for group in components(table, separator) {
        for &i in &group {
            let there = reached_inside(table, &group, i);
            let back = reached_inside(&reversed(table), &group, i);
            strong.insert(&there & &back);
        }
    }
    strong.into_iter().collect()
}

/// A pass whose choices of one direction alone ask for ways.
fn pass_by_one_direction(
    asking: Direction,
    table: &mut LegTable,
    seed: usize,
    limit: usize,
) -> Verdict {
    let levels = levels(table, seed);
    if !unreached(table, &levels).is_empty() {
        return Verdict::None;
    }
    for level in inner(&levels).iter().filter(|level| level.len() <= limit) {
        let sound = SeparatorGraph::new(table, level, &components(table, level));
        let without = Fault::NoWay.marked(table, level);
        let taken = Direction::BOTH.map(|direction| {
            let graph = if direction == asking {
                &sound
            } else {
                &without
            };
            graph.legs_taken_bare(direction)
        });
        let [Some(out), Some(into)] = taken else {
            return Verdict::None;
        };
        let inside = |(i, j): &Leg| level.contains(i) && level.contains(j);
        let mut gone = table.legs();
        gone.retain(|leg| inside(leg) && !(out.contains(leg) && into.contains(leg)));
        table.strike(&gone);
    }
    Verdict::Undecided
}

impl Fault {
    /// The fast calls with passes of this fault.
    fn calls(self) -> impl Calls {
        OtherPass(move || move |table: &mut LegTable, seed, limit| self.pass(table, seed, limit))
    }
}

#[test]
fn faults_with_ways_are_found() {
    for (fault, enough) in FAULTS {
        let faulty = fault.calls();
        for seed in 1..=3 {
            let found = (0..enough).find(|&index| compare_sheet(&faulty, seed, index).is_err());
            assert!(found.is_some(), "{fault:?} is not found with seed {seed}");
        }
    }
}

#[test]
fn the_vectors_tell_faults_with_ways() {
    let script = vectors::valleys();
    let sound = answers(&Plain, script.bytes());
    for (fault, _) in FAULTS {
        let told = answers(&fault.calls(), script.bytes());
        assert!(told != sound, "{fault:?}");
    }
}
