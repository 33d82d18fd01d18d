//! Valleys: components whose legs mostly stand one way, so that a way in may not lead
//! to a way out.

use super::{add_road, add_round, fill_group, round_along, Xorshift};
use crate::paper::{dead_end, valley};
use crate::table::{Leg, LegTable};

/// Two to five hubs, a depot with a road to each, and behind the hubs fewer valleys than
/// there are hubs: from the depot the hubs are a level, and each valley is one of its
/// components. Often a round comes to every station of a valley in one go; it is handed
/// back as [`super::plant_round`] does.
pub fn one_way_valleys(rng: &mut Xorshift, n: usize) -> (LegTable, Option<Vec<usize>>) {
    let order = rng.order(n);
    let (hubs, others) = order.split_at(rng.between(2, (n - 2).min(5)));
    let (depot, behind) = others.split_at(1);
    let valleys = rng.between(1, hubs.len() - 1);
    let valleys = behind.chunks(behind.len().div_ceil(valleys));

    let mut table = LegTable::empty(n);
    let density = rng.pick(&[20, 40, 60]);
    fill_group(rng, &mut table, hubs, density);
    for &hub in hubs {
        add_road(rng, &mut table, (depot[0], hub), 60);
    }
    for valley in valleys.clone() {
        add_valley(rng, &mut table, hubs, valley);
    }
    let round = rng.percent(60).then(|| {
        let mut groups = std::iter::once(depot).chain(valleys);
        let mut way = Vec::new();
        for &hub in hubs {
            way.push(hub);
            way.extend(groups.next().unwrap_or_default());
        }
        round_along(&way)
    });
    if let Some(round) = &round {
        add_round(&mut table, round);
    }
    (table, round)
}

/// Joins each station of a valley to one of the last two before it, and adds legs
/// between it and the hubs.
fn add_valley(rng: &mut Xorshift, table: &mut LegTable, hubs: &[usize], valley: &[usize]) {
    let two_way = rng.pick(&[0, 0, 20]);
    for at in 1..valley.len() {
        let before = at - rng.between(1, at.min(2));
        add_road(rng, table, (valley[before], valley[at]), two_way);
    }
    let chance = rng.pick(&[25, 50, 75]);
    for &hub in hubs {
        if rng.percent(chance) {
            table.add(hub, rng.pick(valley));
        }
        if rng.percent(chance) {
            table.add(rng.pick(valley), hub);
        }
    }
}

/// The valley of the paper with a road n→…→6→5 in place of its one leg.
pub fn long_valley(n: usize) -> LegTable {
    with_road(&valley(), n, (5..n).map(|k| (k + 1, k)))
}

pub fn long_dead_end(n: usize) -> LegTable {
    with_road(&dead_end(), n, (5..n).map(|k| (k + 1, k)))
}

/// The long valley with legs both ways, but for the one from station `gap` to the next.
/// Up to `gap` the road can be driven either way, and from there on only back.
pub fn road_with_gap(n: usize, gap: usize) -> LegTable {
    let up = (5..n).filter(|&k| k != gap).map(|k| (k, k + 1));
    let down = (5..n).map(|k| (k + 1, k));
    with_road(&valley(), n, up.chain(down))
}

/// Station 6 of a table of six comes to the end of a road from 5 on.
fn with_road(table: &LegTable, n: usize, road: impl Iterator<Item = Leg>) -> LegTable {
    let end = |k| if k == 6 { n } else { k };
    let legs = table.legs().into_iter().filter(|&leg| leg != (6, 5));
    let legs = legs.map(|(i, j)| (end(i), end(j)));
    LegTable::from_legs(n, legs.chain(road))
}

/// From seed 4 the separator is {1, 2, 3}. Its round 4→3→5→2→6→1→4 comes to the valley
/// of 5 and 6 twice, and leaves it where it has entered it. Without such ways station 2
/// has no mark in an out-choice.
pub fn through_one_station() -> LegTable {
    let between = [(1, 4), (4, 2), (4, 3)];
    let valley = [(2, 6), (3, 5), (5, 2), (5, 6), (6, 1)];
    LegTable::from_legs(6, between.into_iter().chain(valley))
}

/// From seed 4 the separator is {1, 2, 3}. The valley of 5 and 6 is entered by 2→6, and
/// the way from there to 5→1 leaves it by 6→3, to come back by 1→5. It does not count:
/// in an in-choice only 3 can take the valley, and 1→3 goes. Out-choices are the same
/// without ways; 4→2→1→5→6→3→4 is a round.
pub fn way_outside() -> LegTable {
    let between = [(1, 3), (1, 4), (2, 1), (3, 4), (4, 2)];
    let valley = [(1, 5), (2, 6), (5, 1), (5, 6), (6, 3)];
    LegTable::from_legs(6, between.into_iter().chain(valley))
}

/// From seed 6 level {1, 5} strikes 1→5, by which 4→1 led to 5→3. At level {2, 3, 4} only
/// 2 can then take {1, 5, 6} in an in-choice, and 3→2 goes. With the legs that stood at
/// first it would stay; 6→1→2→7→4→3→5→6 is a round.
pub fn way_struck_before() -> LegTable {
    let from_1_to_3 = [(1, 2), (1, 5), (2, 7), (3, 2), (3, 5)];
    let from_4_to_7 = [(4, 1), (4, 3), (5, 3), (5, 6), (6, 1), (7, 4)];
    LegTable::from_legs(7, from_1_to_3.into_iter().chain(from_4_to_7))
}

/// From seed 3 level {1, 4} strikes 1→4. At level {2, 6} no way is left from 2→1 to 4→6,
/// and {1, 3, 4} can't be used.
pub fn no_way_left() -> LegTable {
    let from_1_to_3 = [(1, 2), (1, 4), (2, 1), (2, 6), (3, 1)];
    let from_4_to_6 = [(4, 3), (4, 6), (5, 2), (6, 4), (6, 5)];
    LegTable::from_legs(6, from_1_to_3.into_iter().chain(from_4_to_6))
}
