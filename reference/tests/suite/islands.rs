//! Stations out of reach: `unreached` against a separate search, tables with a
//! round, and what the pass without that check would have said.

use reference::choices::SeparatorGraph;
use reference::gen::{all_tables, any_table, wide_islands, Xorshift};
use reference::graph::{components, inner, levels, unreached};
use reference::hand::Verdict;
use reference::pass::{pass_table, strike_by};
use reference::rounds::rounds;
use reference::{End, LegTable, WorkState};

use crate::ALL;

/// A table of any family, or islands.
fn table_or_islands(rng: &mut Xorshift, n: usize) -> LegTable {
    if rng.percent(50) {
        wide_islands(rng, n)
    } else {
        any_table(rng, n)
    }
}

/// Stations with a leg between them come into one group; entry i−1 names the
/// group of station i.
fn groups(table: &LegTable) -> Vec<usize> {
    let mut group: Vec<usize> = table.stations().collect();
    for (i, j) in table.legs() {
        let (kept, given_up) = (group[i - 1], group[j - 1]);
        for name in &mut group {
            if *name == given_up {
                *name = kept;
            }
        }
    }
    group
}

/// Are some stations unreached? They have to be those outside the seed's group.
fn hold_unreached(table: &LegTable, seed: usize) -> bool {
    let group = groups(table);
    let outside = table.stations().filter(|i| group[i - 1] != group[seed - 1]);
    let unreached = unreached(table, &levels(table, seed));
    assert_eq!(unreached, outside.collect(), "seed {seed} on {table:?}");
    !unreached.is_empty()
}

#[test]
fn unreached_are_the_stations_of_other_groups_on_all_tables_up_to_four() {
    let (mut with, mut without) = (0, 0);
    for n in 2..=4 {
        for table in all_tables(n) {
            for seed in table.stations() {
                match hold_unreached(&table, seed) {
                    true => with += 1,
                    false => without += 1,
                }
            }
        }
    }
    assert!(with > 1_000 && without > 1_000);
}

#[test]
fn unreached_are_the_stations_of_other_groups_on_made_up_tables() {
    let mut rng = Xorshift::new(41);
    let (mut with, mut without) = (0, 0);
    for _ in 0..2_000 {
        let n = rng.between(2, 64);
        let table = table_or_islands(&mut rng, n);
        match hold_unreached(&table, rng.between(1, n)) {
            true => with += 1,
            false => without += 1,
        }
    }
    assert!(with > 500 && without > 500);
}

/// A round comes to every station, so that none is out of reach. Is there one?
fn hold_rounds(table: &LegTable) -> bool {
    let has_round = !rounds(table).is_empty();
    if has_round {
        for seed in table.stations() {
            assert!(unreached(table, &levels(table, seed)).is_empty());
        }
    }
    has_round
}

#[test]
fn a_table_with_a_round_has_no_station_out_of_reach() {
    let mut rng = Xorshift::new(42);
    let mut with_round = 0;
    for n in 2..=4 {
        with_round += all_tables(n).filter(hold_rounds).count();
    }
    assert!(with_round > 500);
    for _ in 0..4_000 {
        let n = rng.between(2, 7);
        with_round += usize::from(hold_rounds(&any_table(&mut rng, n)));
    }
    assert!(with_round > 2_500);
}

/// The pass as it was before stations out of reach gave none.
fn pass_by_levels(table: &mut LegTable, seed: usize, limit: usize) -> Verdict {
    let levels = levels(table, seed);
    for level in inner(&levels).iter().filter(|level| level.len() <= limit) {
        let graph = SeparatorGraph::new(table, level, &components(table, level));
        if strike_by(table, &graph) == Verdict::None {
            return Verdict::None;
        }
    }
    Verdict::Undecided
}

/// Passes by what told none.
#[derive(Default)]
struct Passes {
    /// Nothing but the stations out of reach.
    no_inner_level: usize,
    all_over_the_limit: usize,
    /// The stations out of reach, and a level as well.
    level_too: usize,
    /// A level of a table without stations out of reach.
    level_alone: usize,
    /// Nothing told none, and legs went.
    struck: usize,
}

impl Passes {
    /// Holds one pass to the one by levels: they differ only where a station is out
    /// of reach and no inner level can be looked at.
    fn hold(&mut self, table: &LegTable, seed: usize, limit: usize) {
        let (mut before, mut after) = (table.clone(), table.clone());
        let by_levels = pass_by_levels(&mut before, seed, limit);
        let verdict = pass_table(&mut after, seed, limit);
        let levels = levels(table, seed);
        if unreached(table, &levels).is_empty() {
            assert_eq!((verdict, &after), (by_levels, &before));
            self.level_alone += usize::from(verdict == Verdict::None);
            self.struck += usize::from(verdict != Verdict::None && after != *table);
            return;
        }
        assert_eq!((verdict, &after), (Verdict::None, table));
        assert_eq!(&before, table);
        hold_by_hand(table, seed, limit);
        let looked_at = inner(&levels).iter().any(|level| level.len() <= limit);
        assert_eq!(by_levels == Verdict::None, looked_at);
        match looked_at {
            true => self.level_too += 1,
            false if levels.len() < 3 => self.no_inner_level += 1,
            false => self.all_over_the_limit += 1,
        }
    }
}

/// The same by hand: nothing but the end changes.
fn hold_by_hand(table: &LegTable, seed: usize, limit: usize) {
    let state = WorkState {
        place: 1,
        mark: true,
        end: End::Stable,
        ..WorkState::opened(table, limit as u64)
    };
    let none = WorkState {
        end: End::None,
        ..state
    };
    for calls in ALL {
        let passed = calls.pass(state, seed as u64);
        assert_eq!((passed.number, passed.removed, passed.state), (0, 0, none));
    }
}

#[test]
fn the_pass_by_levels_differs_only_on_islands_up_to_four() {
    let mut passes = Passes::default();
    for n in 2..=4 {
        for table in all_tables(n) {
            for seed in table.stations() {
                for limit in [1, 2, 64] {
                    passes.hold(&table, seed, limit);
                }
            }
        }
    }
    // An inner level of two needs four stations that are reached.
    assert_eq!(passes.all_over_the_limit, 0);
    assert!(passes.no_inner_level > 1_000 && passes.level_too > 500);
    assert!(passes.level_alone > 1_000 && passes.struck > 100);
}

#[test]
fn the_pass_by_levels_differs_only_on_islands_of_made_up_tables() {
    let mut rng = Xorshift::new(43);
    let mut passes = Passes::default();
    for _ in 0..6_000 {
        let n = rng.between(2, 24);
        let table = table_or_islands(&mut rng, n);
        let seed = rng.between(1, n);
        passes.hold(&table, seed, rng.pick(&[1, 2, 3, 64]));
    }
    assert!(passes.no_inner_level > 500 && passes.all_over_the_limit > 500);
    assert!(passes.level_too > 500 && passes.level_alone > 200 && passes.struck > 100);
}
