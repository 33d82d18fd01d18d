//! The test by pivots, read over plain sets: the fast calls tell the same passes by
//! it, and the comparison finds what may go wrong with it.

use std::collections::BTreeSet;

use reference::compare::compare_sheet;
use reference::gen::{all_tables, any_table, one_way_valleys, reversed, Xorshift};
use reference::graph::{components, levels, reached_inside, unreached};
use reference::hand::Verdict;
use reference::pass::pass_table;
use reference::{fast, Calls, LegTable, WorkState};

use crate::other_pass::OtherPass;

type Stations = BTreeSet<usize>;

#[derive(Clone, Copy, Debug, PartialEq, Eq)]
enum Fault {
    /// Whether the seed leads to all stations and all lead to it is not asked.
    NotConnected,
    /// A pair may be of a station with itself.
    OwnPair,
    /// All stations of a group are taken to lead to its pivot.
    AllLeadBack,
    /// Only the topmost level makes groups.
    NoNewGroups,
    /// The levels below make no group.
    SeedForgotten,
    /// Stations with a leg inside the level need not be left over.
    SpareNotAsked,
    /// Only the first stations of pairs are looked at.
    OneSide,
    /// Levels of more than two stations are skipped.
    WideLevelsSkipped,
    /// What is known of passes stays when legs go.
    NeverForgotten,
}

const FAULTS: [Fault; 9] = [
    Fault::NotConnected,
    Fault::OwnPair,
    Fault::AllLeadBack,
    Fault::NoNewGroups,
    Fault::SeedForgotten,
    Fault::SpareNotAsked,
    Fault::OneSide,
    Fault::WideLevelsSkipped,
    Fault::NeverForgotten,
];

/// The test, perhaps with a fault.
#[derive(Clone, Copy)]
struct Test(Option<Fault>);

impl Test {
    fn has(self, fault: Fault) -> bool {
        self.0 == Some(fault)
    }

    /// Does it tell that the pass changes nothing? The second stations of pairs are
    /// the first ones where every leg is turned round.
    fn tells(self, table: &LegTable, seed: usize, limit: usize) -> bool {
        let side = |table: &LegTable| self.one_side(table, seed, limit);
        side(table) && (self.has(Fault::OneSide) || side(&reversed(table)))
    }

    fn one_side(self, table: &LegTable, seed: usize, limit: usize) -> bool {
        let levels = levels(table, seed);
        let inner = 1..levels.len() - 1;
        if !unreached(table, &levels).is_empty() {
            return false;
        }
        let all: Stations = table.stations().collect();
        let reaches_all = |table| reached_inside(table, &all, seed) == all;
        let connected = reaches_all(table) && reaches_all(&reversed(table));
        if !inner.is_empty() && !connected && !self.has(Fault::NotConnected) {
            return false;
        }
        let mut pivots = Vec::new();
        inner.rev().all(|k| {
            let level = &levels[k];
            let below: Stations = levels[..k].iter().flatten().copied().collect();
            let parts = components(table, &(&below | level));
            if pivots.is_empty() || !self.has(Fault::NoNewGroups) {
                pivots = pivots_of(&parts, &pivots);
            }
            let part_of = |pivot| parts.iter().find(|part| part.contains(pivot));
            let fit = |part, pivot| self.fitting(table, level, part, pivot);
            let above = pivots
                .iter()
                .map(|pivot| fit(part_of(pivot).expect("a part"), *pivot));
            let mut fits: Vec<Stations> = above.collect();
            if !self.has(Fault::SeedForgotten) {
                fits.push(fit(&below, seed));
            }
            let skipped = level.len() > limit;
            skipped || self.wide(level) || self.settles(table, level, &fits)
        })
    }

    fn wide(self, level: &Stations) -> bool {
        self.has(Fault::WideLevelsSkipped) && level.len() > 2
    }

    /// The stations of a level that lead to the pivot of a part, if the pivot leads to
    /// another one.
    fn fitting(
        self,
        table: &LegTable,
        level: &Stations,
        part: &Stations,
        pivot: usize,
    ) -> Stations {
        let ahead = reached_inside(table, part, pivot);
        let back = match self.has(Fault::AllLeadBack) {
            true => part.clone(),
            false => reached_inside(&reversed(table), part, pivot),
        };
        let leads = |i: usize| back.iter().any(|&c| table.has(i, c));
        let follows = |j: usize| ahead.iter().any(|&c| table.has(c, j));
        let paired = |i: usize, j: usize| follows(j) && (i != j || self.has(Fault::OwnPair));
        let fits = |&i: &usize| leads(i) && level.iter().any(|&j| paired(i, j));
        level.iter().copied().filter(fits).collect()
    }

    /// The groups can have stations of their own that fit, whichever one with a leg
    /// inside the level is left over.
    fn settles(self, table: &LegTable, level: &Stations, fits: &[Stations]) -> bool {
        let bare = |i: &usize| level.iter().any(|&j| table.has(*i, j));
        let left_over = |i: &usize| handed_out(fits, &(level - &Stations::from([*i])));
        let spare =
            self.has(Fault::SpareNotAsked) || level.iter().filter(|i| bare(i)).all(left_over);
        handed_out(fits, level) && spare
    }

    /// The fast calls with passes that are worked through only if neither the test nor
    /// an earlier pass tells that they change nothing.
    fn calls(self) -> impl Calls {
        OtherPass(move || {
            let (mut known, mut legs) = (Stations::new(), 0);
            move |table: &mut LegTable, seed, limit| {
                // Legs may also go by sweeps and chain steps.
                if table.leg_count() != legs && !self.has(Fault::NeverForgotten) {
                    known.clear();
                }
                legs = table.leg_count();
                if known.contains(&seed) || self.tells(table, seed, limit) {
                    return Verdict::Undecided;
                }
                let verdict = pass_table(table, seed, limit);
                if table.leg_count() == legs {
                    known.insert(seed);
                }
                verdict
            }
        })
    }
}

/// The pivots of parts: of those before the first in each part, and in a part without
/// any its lowest station.
fn pivots_of(parts: &[Stations], before: &[usize]) -> Vec<usize> {
    let lowest = parts.iter().filter_map(|part| part.first().copied());
    let mut pivots: Vec<usize> = Vec::new();
    for pivot in before.iter().copied().chain(lowest) {
        let part = parts.iter().find(|part| part.contains(&pivot));
        if part.is_some_and(|part| !pivots.iter().any(|other| part.contains(other))) {
            pivots.push(pivot);
        }
    }
    pivots
}

/// Can each group have another of the free stations, one that fits?
fn handed_out(fits: &[Stations], free: &Stations) -> bool {
    fits.split_first().is_none_or(|(fit, others)| {
        let takes = |i: &usize| handed_out(others, &(free - &Stations::from([*i])));
        fit.intersection(free).any(takes)
    })
}

/// Both tell the same passes from all seeds.
fn same(table: &LegTable, limit: u64) {
    let state = WorkState::opened(table, limit);
    for seed in table.stations() {
        let told = fast::tells_idle(&state, seed as u64);
        assert_eq!(told, Test(None).tells(table, seed, limit as usize));
    }
}

#[test]
fn the_fast_calls_tell_the_same_passes() {
    for table in (2..=4).flat_map(all_tables) {
        same(&table, 64);
    }
    let mut rng = Xorshift::new(73);
    for _ in 0..2_000 {
        let n = rng.between(5, 14);
        let table = any_table(&mut rng, n);
        same(&table, rng.pick(&[1, 2, 3, 64]));
        same(&one_way_valleys(&mut rng, n).0, 64);
    }
}

#[test]
fn without_a_fault_nothing_is_found() {
    let calls = Test(None).calls();
    for index in 0..150 {
        assert!(compare_sheet(&calls, 1, index).is_ok());
    }
}

#[test]
fn faults_of_the_test_are_found() {
    for fault in FAULTS {
        let faulty = Test(Some(fault)).calls();
        for seed in 1..=2 {
            let found = (0..1_000).any(|index| compare_sheet(&faulty, seed, index).is_err());
            assert!(found, "{fault:?} is not found with seed {seed}");
        }
    }
}
