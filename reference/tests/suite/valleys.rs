//! Ways inside components: marks against walks tried one by one, what the named tables
//! tell, and the pass by marks that ask for no way.

use std::collections::BTreeSet;

use reference::choices::{Direction, Mark, SeparatorGraph};
use reference::compare::valleys::{pass_without_ways, run_without_ways, TellingTable};
use reference::gen::{
    all_tables, any_table, long_dead_end, long_valley, no_way_left, one_way_valleys,
};
use reference::gen::{renamed, reversed, ring, road_with_gap, through_one_station, two_way};
use reference::gen::{way_outside, way_struck_before, Xorshift};
use reference::graph::{components, inner, levels, reached_inside};
use reference::hand::Verdict;
use reference::list_check;
use reference::paper::{butterfly, dead_end, greedy_trap, valley, NINE_LEGS};
use reference::pass::pass_table;
use reference::rounds::rounds;
use reference::table::Leg;
use reference::{open, run, Calls, End, LegTable, Plain, WorkState};

use crate::{opened, removed_legs, ALL, FAST};

fn stations(numbers: &[usize]) -> BTreeSet<usize> {
    numbers.iter().copied().collect()
}

/// Tries every walk that comes to no station of the component twice: does one of them
/// lead from its last station to j?
fn driven(table: &LegTable, component: &BTreeSet<usize>, walk: &mut Vec<usize>, j: usize) -> bool {
    let last = walk[walk.len() - 1];
    if walk.len() > 1 && table.has(last, j) {
        return true;
    }
    component.iter().any(|&next| {
        if !table.has(last, next) || walk.contains(&next) {
            return false;
        }
        walk.push(next);
        let found = driven(table, component, walk, j);
        walk.pop();
        found
    })
}

/// Marks that stand, and those that would stand without ways.
#[derive(Default)]
struct Marks {
    standing: usize,
    barred: usize,
}

impl Marks {
    fn hold(&mut self, table: &LegTable, separator: &BTreeSet<usize>) {
        let groups = components(table, separator);
        let graph = SeparatorGraph::new(table, separator, &groups);
        for (&(i, j), marks) in &graph.marks {
            assert_eq!(marks.contains(&Mark::Bare), table.has(i, j));
            for (index, group) in groups.iter().enumerate() {
                let stands = driven(table, group, &mut vec![i], j);
                assert_eq!(marks.contains(&Mark::Component(index)), stands);
                let enters = group.iter().any(|&c| table.has(i, c));
                let leaves = group.iter().any(|&d| table.has(d, j));
                assert!(!stands || (enters && leaves));
                self.standing += usize::from(stands);
                self.barred += usize::from(enters && leaves && !stands);
            }
        }
    }
}

#[test]
fn marks_equal_walks_tried_one_by_one_on_all_tables_up_to_four() {
    let mut marks = Marks::default();
    for n in 3..=4 {
        for table in all_tables(n) {
            for i in 1..=n {
                for j in 1..i {
                    marks.hold(&table, &stations(&[i, j]));
                }
            }
        }
    }
    assert!(marks.standing > 5_000 && marks.barred > 500);
}

#[test]
fn marks_equal_walks_tried_one_by_one_on_made_up_tables() {
    let mut rng = Xorshift::new(61);
    let mut marks = Marks::default();
    for _ in 0..4_000 {
        let n = rng.between(4, 8);
        let table = match rng.percent(60) {
            true => one_way_valleys(&mut rng, n).0,
            false => any_table(&mut rng, n),
        };
        let levels = levels(&table, rng.between(1, n));
        for level in inner(&levels) {
            marks.hold(&table, level);
        }
        let size = rng.between(2, 3);
        let any = rng.order(n).into_iter().take(size).collect();
        marks.hold(&table, &any);
    }
    assert!(marks.standing > 10_000 && marks.barred > 500);
}

/// A pass by hand with the highest limit: the legs that went, and was it none?
fn passed(calls: &dyn Calls, table: &LegTable, seed: u64) -> (Vec<Leg>, bool) {
    let before = opened(table);
    let passed = calls.pass(before, seed);
    let gone = removed_legs(&before, &passed.state);
    (gone, passed.state.end == End::None)
}

/// The same without ways.
fn passed_without_ways(table: &LegTable, seed: usize) -> (Vec<Leg>, bool) {
    let mut left = table.clone();
    let verdict = pass_without_ways(&mut left, seed, 64);
    let gone = removed_legs(&opened(table), &opened(&left));
    (gone, verdict == Verdict::None)
}

const NONE: (Vec<Leg>, bool) = (Vec::new(), true);
const ALL_KEPT: (Vec<Leg>, bool) = (Vec::new(), false);

fn gone(leg: Leg) -> (Vec<Leg>, bool) {
    (vec![leg], false)
}

/// The marks of the first level from a seed, and its components.
fn first_level(table: &LegTable, seed: usize) -> (SeparatorGraph, Vec<BTreeSet<usize>>) {
    let separator = &levels(table, seed)[1];
    let groups = components(table, separator);
    (SeparatorGraph::new(table, separator, &groups), groups)
}

/// 5 and 6 in a valley, legs 1→5, 6→2 and 6→5 but no 5→6: no passage from 1 to 2.
#[test]
fn the_valley_that_cannot_be_driven() {
    for table in [valley(), dead_end()] {
        for (i, j) in [(1, 5), (6, 2), (6, 5)] {
            assert!(table.has(i, j) && !table.has(5, 6));
        }
        let (graph, groups) = first_level(&table, 4);
        assert_eq!(graph.separator, stations(&[1, 2, 3]));
        assert_eq!(groups, [stations(&[4]), stations(&[5, 6])]);
        assert!(!graph.marks[&(1, 2)].contains(&Mark::Component(1)));
    }
    assert_eq!(rounds(&valley()), [vec![4, 6, 2, 3, 1, 5]]);
    assert!(rounds(&dead_end()).is_empty());
    assert_eq!(passed_without_ways(&valley(), 4), ALL_KEPT);
    assert_eq!(passed_without_ways(&dead_end(), 4), gone((3, 2)));
    for calls in ALL {
        assert_eq!(passed(calls, &valley(), 4), gone((3, 1)));
        assert_eq!(passed(calls, &dead_end(), 4), NONE);
    }
}

/// What the first paper names, with every seed and as a run.
#[test]
fn the_named_cases_are_as_without_ways() {
    let sheets: [&[u8]; 4] = [&NINE_LEGS, &[3, 0, 0, 0], &[2, 0, 0], &[2, 4, 1, 0]];
    let sheets = sheets.map(|sheet| open(sheet, 64).state.table());
    let named = [ring(4), ring(5), butterfly(), greedy_trap()];
    for table in sheets.iter().chain(&named) {
        for limit in [1, 2, 3, 64] {
            for seed in table.stations() {
                let (mut with, mut without) = (table.clone(), table.clone());
                let verdict = pass_table(&mut with, seed, limit);
                assert_eq!(verdict, pass_without_ways(&mut without, seed, limit));
                assert_eq!(with, without);
            }
            let state = WorkState::opened(table, limit as u64);
            assert_eq!(run(state, 300_000), run_without_ways(state, 300_000));
        }
    }
    for calls in ALL {
        for seed in 1..=5 {
            assert_eq!(passed(calls, &ring(5), seed), ALL_KEPT);
        }
    }
}

/// Legs taken bare on the first level where no station is way in and way out.
fn bare_without_one_station(table: &LegTable, seed: usize) -> Option<BTreeSet<Leg>> {
    let separator = &levels(table, seed)[1];
    let groups = components(table, separator);
    let others = |table: &LegTable, group: &BTreeSet<usize>, c: usize| {
        &reached_inside(table, group, c) - &stations(&[c])
    };
    SeparatorGraph::by_ways(table, separator, &groups, others).bare_legs()
}

#[test]
fn one_station_is_way_in_and_way_out() {
    let square = two_way(4, &[(1, 2), (2, 3), (3, 4), (4, 1)]);
    let (_, groups) = first_level(&square, 1);
    assert_eq!(groups, [stations(&[1]), stations(&[3])]);
    let (_, groups) = first_level(&through_one_station(), 4);
    assert_eq!(groups, [stations(&[4]), stations(&[5, 6])]);
    assert_eq!(rounds(&through_one_station()), [vec![4, 6, 5, 3, 2, 1]]);
    let reversed = reversed(&through_one_station());
    for (table, seed) in [(square, 1), (through_one_station(), 4), (reversed, 4)] {
        assert_eq!(bare_without_one_station(&table, seed), None);
        for calls in ALL {
            assert_eq!(passed(calls, &table, seed as u64), ALL_KEPT);
        }
    }
}

/// The legs that choices of a direction take bare on the first level from seed 4.
fn taken_bare(table: &LegTable, direction: Direction, ways: bool) -> Option<BTreeSet<Leg>> {
    let (graph, groups) = first_level(table, 4);
    let whole = |_: &LegTable, group: &BTreeSet<usize>, _| group.clone();
    match ways {
        true => graph.legs_taken_bare(direction),
        false => SeparatorGraph::by_ways(table, &graph.separator, &groups, whole)
            .legs_taken_bare(direction),
    }
}

#[test]
fn ways_outside_the_component_do_not_count() {
    let table = way_outside();
    let everywhere = reached_inside(&table, &table.stations().collect(), 6);
    assert!(everywhere.contains(&5));
    assert_eq!(
        reached_inside(&table, &stations(&[5, 6]), 6),
        stations(&[6])
    );
    let cases = [
        (way_outside(), Direction::In, Direction::Out, (1, 3)),
        (
            reversed(&way_outside()),
            Direction::Out,
            Direction::In,
            (3, 1),
        ),
    ];
    for (table, changed, same, leg) in cases {
        assert_eq!(rounds(&table).len(), 1);
        assert_eq!(
            taken_bare(&table, same, true),
            taken_bare(&table, same, false)
        );
        assert_ne!(
            taken_bare(&table, changed, true),
            taken_bare(&table, changed, false)
        );
        assert_eq!(passed_without_ways(&table, 4), ALL_KEPT);
        for calls in ALL {
            assert_eq!(passed(calls, &table, 4), gone(leg));
        }
    }
}

/// The marks of a level belong to the legs that the levels before have left.
#[test]
fn ways_lose_the_legs_of_earlier_levels() {
    assert_eq!(rounds(&way_struck_before()), [vec![2, 7, 5, 3, 6, 1, 4]]);
    let (two_legs, one_leg) = (vec![(1, 5), (3, 2)], vec![(1, 4)]);
    for calls in ALL {
        let struck = passed(calls, &way_struck_before(), 6);
        assert_eq!(struck, (two_legs.clone(), false));
        let mut without = way_struck_before();
        without.strike(&[(1, 5)]);
        assert_eq!(passed(calls, &without, 6), gone((3, 2)));
        assert_eq!(passed(calls, &no_way_left(), 3), (one_leg.clone(), true));
    }
}

#[test]
fn long_roads() {
    assert_eq!((long_valley(6), long_dead_end(6)), (valley(), dead_end()));
    let mut rng = Xorshift::new(65);
    for n in [7, 12, 20, 63, 64] {
        let mut roads = vec![(long_valley(n), gone((3, 1))), (long_dead_end(n), NONE)];
        roads.extend((5..n).map(|gap| (road_with_gap(n, gap), gone((3, 1)))));
        // From the last station there is no next one.
        roads.push((road_with_gap(n, n), ALL_KEPT));
        for (table, (legs, none)) in roads {
            let names = rng.order(n);
            let table = renamed(&table, &names);
            let seed = names[3] as u64;
            let legs: Vec<Leg> = legs
                .into_iter()
                .map(|(i, j)| (names[i - 1], names[j - 1]))
                .collect();
            for calls in ALL {
                assert_eq!(passed(calls, &table, seed), (legs.clone(), none));
            }
        }
        let mut round: Vec<u8> = (0..n as u8).collect();
        round[..5].copy_from_slice(&[4, n as u8, 2, 3, 1]);
        assert!(list_check(&opened(&long_valley(n)), &round).yes);
    }
}

/// How the pass and the pass without ways come out.
#[derive(Default)]
struct Passes {
    same: usize,
    struck: usize,
    none: usize,
}

impl Passes {
    /// Ways only bar marks: a level that they do not end strikes at least as much, and
    /// none without them is none.
    fn hold(&mut self, table: &LegTable, seed: usize, limit: usize) {
        let (mut with, mut without) = (table.clone(), table.clone());
        let verdict = pass_table(&mut with, seed, limit);
        let before = pass_without_ways(&mut without, seed, limit);
        if before == Verdict::None {
            assert_eq!(verdict, Verdict::None);
        }
        if verdict != Verdict::None {
            assert!(with.legs().iter().all(|&(i, j)| without.has(i, j)));
        }
        if verdict != before {
            self.none += 1;
        } else if with != without && verdict == Verdict::Undecided {
            self.struck += 1;
        } else {
            self.same += 1;
        }
    }
}

#[test]
fn ways_bar_marks_and_give_none() {
    let mut rng = Xorshift::new(62);
    let mut passes = Passes::default();
    for _ in 0..2_000 {
        let n = rng.between(4, 14);
        let table = one_way_valleys(&mut rng, n).0;
        let limit = rng.pick(&[2, 3, 64, 64]);
        for seed in table.stations() {
            passes.hold(&table, seed, limit);
        }
    }
    assert!(passes.same > 10_000 && passes.struck > 80 && passes.none > 40);
}

/// Every seed and several limits by hand, and a whole run.
fn hold_fast(table: &LegTable) {
    for limit in [1, 2, 3, 64] {
        let state = WorkState::opened(table, limit);
        for seed in 1..=state.n {
            let passed = Plain.pass(state, seed);
            assert!(FAST.iter().all(|fast| fast.pass(state, seed) == passed));
        }
        let ran = Plain.run(state, u32::MAX);
        assert!(FAST.iter().all(|fast| fast.run(state, u32::MAX) == ran));
    }
}

#[test]
fn fast_calls_on_valleys() {
    let mut rng = Xorshift::new(63);
    for _ in 0..1_500 {
        let n = rng.between(4, 12);
        hold_fast(&one_way_valleys(&mut rng, n).0);
    }
    for n in [13, 18, 24] {
        hold_fast(&one_way_valleys(&mut rng, n).0);
    }
}

#[test]
fn telling_tables_have_a_round_or_none() {
    let mut rng = Xorshift::new(64);
    let (mut with_round, mut without) = (0, 0);
    for _ in 0..120 {
        let n = rng.between(6, 8);
        let TellingTable { table, round, seed } = TellingTable::drawn(&mut rng, n);
        let found = rounds(&table);
        assert!(round.is_none_or(|round| found.contains(&round)));
        let without_ways = passed_without_ways(&table, seed as usize);
        assert_ne!(passed(&Plain, &table, seed), without_ways);
        match found.is_empty() {
            true => without += 1,
            false => with_round += 1,
        }
    }
    assert!(with_round > 20 && without > 20);
}
