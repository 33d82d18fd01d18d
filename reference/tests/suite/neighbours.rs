//! Neighbours in the components of a pass: those of an earlier level tell nothing
//! within a pass, and the comparison finds what other faults do with them.

use std::collections::BTreeSet;

use reference::compare::compare_sheet;
use reference::compare::neighbours::{neighbours_change, outgoing_components, pass_with};
use reference::gen::{any_table, reversed, ring_of_rungs, two_way, two_wide_levels};
use reference::gen::{Family, Xorshift};
use reference::graph::{components, inner, levels, unreached};
use reference::hand::Verdict;
use reference::pass::pass_table;
use reference::table::Leg;
use reference::LegTable;

use crate::other_pass::OtherPass;

/// Strikes all legs inside each inner level once it has been looked at; no pass
/// strikes more. The components of the next ones have to stay as they were. How many
/// levels came after a strike?
fn hold_levels(table: &LegTable, seed: usize) -> usize {
    let levels = levels(table, seed);
    let mut left = table.clone();
    let mut after_strike = 0;
    if !unreached(table, &levels).is_empty() {
        return 0;
    }
    for level in inner(&levels) {
        assert_eq!(components(&left, level), components(table, level));
        after_strike += usize::from(left != *table);
        let mut inside = left.legs();
        inside.retain(|(i, j)| level.contains(i) && level.contains(j));
        left.strike(&inside);
    }
    after_strike
}

/// Levels and components are by neighbours alone, so two-way tables stand for all.
#[test]
fn strikes_inside_levels_leave_later_components_up_to_six() {
    let mut after_strike = 0;
    for n in 2..=6 {
        let pairs: Vec<Leg> = (1..=n).flat_map(|j| (1..j).map(move |i| (i, j))).collect();
        for code in 0..1_u32 << pairs.len() {
            let stands = |at: &usize| code >> at & 1 == 1;
            let roads = (0..pairs.len()).filter(stands).map(|at| pairs[at]);
            let table = two_way(n, &roads.collect::<Vec<_>>());
            after_strike += table
                .stations()
                .map(|seed| hold_levels(&table, seed))
                .sum::<usize>();
        }
    }
    assert_eq!(after_strike, 20_100);
}

#[test]
fn strikes_inside_levels_leave_later_components_of_made_up_tables() {
    let mut rng = Xorshift::new(51);
    let mut after_strike = 0;
    for _ in 0..2_000 {
        let n = rng.between(7, 64);
        let table = any_table(&mut rng, n);
        after_strike += hold_levels(&table, rng.between(1, n));
    }
    assert!(after_strike > 2_000);
}

#[test]
fn the_named_tables_change_neighbours() {
    for n in [6, 8, 64] {
        assert!(neighbours_change(&ring_of_rungs(n), 1, 2));
        assert!(!neighbours_change(&ring_of_rungs(n), 1, 1));
    }
    for width in [2, 3, 31] {
        for seed in [1, 2 * width + 2] {
            assert!(neighbours_change(&two_wide_levels(width), seed, width));
            assert!(!neighbours_change(&two_wide_levels(width), seed, width - 1));
        }
    }
}

/// How long the neighbours of a level are kept in place of later ones.
#[derive(Clone, Copy, Debug, PartialEq, Eq)]
enum Kept {
    Pass,
    Run,
}

#[derive(Clone, Copy, Debug)]
enum Fault {
    /// The first neighbours stand for all later ones.
    First(Kept),
    /// They are gathered again after the first strike, and never after.
    AgainOnce(Kept),
    OutgoingOnly,
    IncomingOnly,
    /// A station beyond n is outside the level too, a component of its own.
    StrayAlone,
    /// It is in the words of the first and the last station, and they in its word.
    StrayJoining,
}

/// Faults with the number of sheets that suffice to find them.
const FAULTS: [(Fault, u64); 6] = [
    (Fault::First(Kept::Run), 100),
    (Fault::AgainOnce(Kept::Run), 600),
    (Fault::OutgoingOnly, 20),
    (Fault::IncomingOnly, 20),
    (Fault::StrayAlone, 20),
    (Fault::StrayJoining, 20),
];

/// Components with a fault, and the tables whose neighbours it has gathered.
struct Growing {
    fault: Fault,
    gathered: Vec<LegTable>,
}

impl Growing {
    fn new(fault: Fault) -> Growing {
        Growing {
            fault,
            gathered: Vec::new(),
        }
    }

    fn components(&mut self, table: &LegTable, level: &BTreeSet<usize>) -> Vec<BTreeSet<usize>> {
        match self.fault {
            Fault::First(_) => components(self.kept(table, 1), level),
            Fault::AgainOnce(_) => components(self.kept(table, 2), level),
            Fault::OutgoingOnly => outgoing_components(table, level),
            Fault::IncomingOnly => outgoing_components(&reversed(table), level),
            Fault::StrayAlone => with_stray(table, level, &[]),
            Fault::StrayJoining => with_stray(table, level, &[1, table.n()]),
        }
    }

    /// The table of the last gathering; after so many gatherings there is none.
    fn kept(&mut self, table: &LegTable, most: usize) -> &LegTable {
        if self.gathered.len() < most && self.gathered.last() != Some(table) {
            self.gathered.push(table.clone());
        }
        &self.gathered[self.gathered.len() - 1]
    }

    fn pass(&mut self, table: &mut LegTable, seed: usize, limit: usize) -> Verdict {
        if let Fault::First(Kept::Pass) | Fault::AgainOnce(Kept::Pass) = self.fault {
            self.gathered.clear();
        }
        pass_with(table, seed, limit, |table, level| {
            self.components(table, level)
        })
    }
}

/// The components that a station beyond n takes part in, joined to some others. It
/// has no row, so that no mark comes from it.
fn with_stray(table: &LegTable, level: &BTreeSet<usize>, joined: &[usize]) -> Vec<BTreeSet<usize>> {
    let stray = table.n() + 1;
    let legs = joined.iter().map(|&i| (i, stray));
    let more = LegTable::from_legs(stray, table.legs().into_iter().chain(legs));
    let mut components = components(&more, level);
    for component in &mut components {
        component.remove(&stray);
    }
    components
}

#[test]
fn faults_with_neighbours_are_found() {
    for (fault, enough) in FAULTS {
        let faulty = OtherPass(|| {
            let mut growing = Growing::new(fault);
            move |table: &mut LegTable, seed, limit| growing.pass(table, seed, limit)
        });
        for seed in 1..=3 {
            let found = (0..enough).find(|&index| compare_sheet(&faulty, seed, index).is_err());
            assert!(found.is_some(), "{fault:?} is not found with seed {seed}");
        }
    }
}

/// Within a pass nothing tells that neighbours were kept too long.
#[test]
fn neighbours_kept_within_a_pass_tell_nothing() {
    let mut rng = Xorshift::new(52);
    let mut changed = 0;
    for _ in 0..6_000 {
        let n = rng.between(5, 16);
        let family = rng.pick(&Family::WITH_STRIKING_LEVELS);
        let table = family.table(&mut rng, n);
        let (seed, limit) = (rng.between(1, n), rng.pick(&[2, 3, 64, 64]));
        let mut passed = table.clone();
        let verdict = pass_table(&mut passed, seed, limit);
        for fault in [Fault::First(Kept::Pass), Fault::AgainOnce(Kept::Pass)] {
            let mut kept = table.clone();
            let by_kept = Growing::new(fault).pass(&mut kept, seed, limit);
            assert_eq!((by_kept, &kept), (verdict, &passed));
        }
        changed += usize::from(neighbours_change(&table, seed, limit));
    }
    assert!(changed > 300);
}
