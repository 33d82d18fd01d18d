//! The cuts of few roads, found by every split and by bridges.

use std::collections::BTreeSet;

use reference::cut::{cut_by, few, roads, splits, Roads};
use reference::gen::must::some_roads;
use reference::gen::{all_two_way, any_two_way, two_way, Network, Xorshift};
use reference::hand::Verdict;
use reference::LegTable;

/// Only cuts of no road if there is one, else only those of one road if there is one.
fn that_matter(mut cuts: BTreeSet<Roads>) -> BTreeSet<Roads> {
    for fewest in 0..=1 {
        if cuts.iter().any(|cut| cut.len() == fewest) {
            cuts.retain(|cut| cut.len() == fewest);
        }
    }
    cuts
}

#[test]
fn both_ways_to_find_cuts_agree_on_all_tables_up_to_six() {
    for n in 3..=6 {
        for table in all_two_way(n) {
            assert_eq!(few::cuts(&table), that_matter(splits::cuts(&table)));
        }
    }
}

/// The same cuts, and the same tables after a step by either of them.
#[test]
fn both_ways_to_find_cuts_agree_on_made_up_tables_up_to_twelve() {
    let mut rng = Xorshift::new(91);
    let (mut none, mut dropped, mut forced) = (0, 0, 0);
    for _ in 0..6_000 {
        let n = rng.between(3, 12);
        let (table, _) = any_two_way(&mut rng, n);
        let [few, splits] = [few::cuts(&table), splits::cuts(&table)];
        assert_eq!(few, that_matter(splits.clone()));
        let chance = rng.pick(&[0, 10, 30, 60]);
        let must = some_roads(&mut rng, &table.rows(), chance);
        let [by_few, by_splits] = [few, splits].map(|cuts| {
            let (mut table, mut must) = (table.clone(), must);
            let verdict = cut_by(&mut table, &mut must, &cuts);
            (verdict, table, must)
        });
        assert_eq!(by_few, by_splits);
        none += u32::from(by_few.0 == Verdict::None);
        dropped += u32::from(by_few.1 != table);
        forced += u32::from(by_few.2 != must);
    }
    assert!(none > 1_000 && dropped > 200 && forced > 1_000);
}

/// On many stations, each cut that is found is one.
#[test]
fn few_roads_cut_many_stations() {
    let mut rng = Xorshift::new(92);
    for network in Network::ALL {
        for n in [13, 24, 40, 64] {
            let (table, _) = network.table(&mut rng, n);
            let all = roads(&table);
            for cut in few::cuts(&table) {
                assert!(cut.len() <= 3 && cut.is_subset(&all));
                assert!(!hang_together(&table, &cut));
            }
        }
    }
}

/// Are all stations joined without these roads?
fn hang_together(table: &LegTable, without: &Roads) -> bool {
    let left: Vec<_> = roads(table).difference(without).copied().collect();
    let left = two_way(table.n(), &left);
    let mut reached = BTreeSet::from([1]);
    for _ in table.stations() {
        let next: Vec<_> = reached.iter().flat_map(|&i| left.successors(i)).collect();
        reached = next.into_iter().copied().chain(reached.clone()).collect();
    }
    reached.len() == table.n()
}
