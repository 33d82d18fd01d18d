//! The cut step of two-way networks (W-209): every round drives an even number of the
//! roads between two groups of stations, and not none of them.

pub mod few;
pub mod laws;
pub mod splits;

use std::collections::BTreeSet;

use crate::card::{self, Number};
use crate::hand::{self, Verdict};
use crate::state::{self, Rows, WorkState};
use crate::table::{Leg, LegTable};

/// What a cut step hands back.
#[derive(Clone, Copy, Debug, PartialEq, Eq)]
pub struct Cut {
    pub number: Number,
    pub state: WorkState,
    pub must: Rows,
    pub removed: u64,
}

/// A road, its lower station first.
pub type Road = (usize, usize);

pub type Roads = BTreeSet<Road>;

pub const FEWEST_STATIONS: usize = 3;

pub fn cut(state: WorkState, must: &Rows) -> Cut {
    let number = number_due(&state, must);
    let mut after = *must;
    let handled = match number {
        card::TAKEN => hand::by_hand(state, |table| cut_table(table, &mut after)),
        _ => hand::refused(number, state),
    };
    Cut {
        number,
        state: handled.state,
        must: after,
        removed: handled.removed,
    }
}

/// The number of every cut step on this state with these must-drive roads.
pub fn number_due(state: &WorkState, must: &Rows) -> Number {
    if state::bad(state) {
        return card::BAD_WORK_STATE;
    }
    let table = state.table();
    if !two_way(&table) {
        card::NOT_TWO_WAY
    } else if has_stray_road(&table, must) {
        card::STRAY_ROAD
    } else {
        card::TAKEN
    }
}

pub fn two_way(table: &LegTable) -> bool {
    let mut legs = table.legs().into_iter();
    table.n() >= FEWEST_STATIONS && legs.all(|(i, j)| table.has(j, i))
}

/// A must-drive road that does not stand or is given one way only.
fn has_stray_road(table: &LegTable, must: &Rows) -> bool {
    let n = table.n();
    let stands = |i, k| i <= n && k <= n && table.has(i, k);
    let given = |i: usize, k: usize| must[i - 1] >> (k - 1) & 1 == 1;
    (1..=64).any(|i| (1..=64).any(|k| given(i, k) && !(stands(i, k) && given(k, i))))
}

/// Applies the rule to a two-way table and its must-drive roads.
fn cut_table(table: &mut LegTable, must: &mut Rows) -> Verdict {
    let cuts = few_roads(table);
    cut_by(table, must, &cuts)
}

/// The same by the cuts of at most three roads.
pub fn cut_by(table: &mut LegTable, must: &mut Rows, cuts: &BTreeSet<Roads>) -> Verdict {
    let given = roads(&LegTable::from_rows(table.n(), must));
    if cuts.iter().any(|cut| bars_all(cut, &given)) {
        return Verdict::None;
    }
    let pairs = cuts.iter().filter(|cut| cut.len() == 2);
    let forced: Roads = pairs.flatten().copied().collect();
    let dropped: Roads = cuts.iter().filter_map(|cut| third(cut, &given)).collect();
    if !forced.is_disjoint(&dropped) {
        return Verdict::None;
    }
    table.strike(&both_ways(&dropped));
    for (i, k) in both_ways(&forced) {
        must[i - 1] |= 1 << (k - 1);
    }
    Verdict::Undecided
}

/// The cuts of at most three roads, as far as they matter: where there is one of no road
/// or of one road, the others may be missing.
fn few_roads(table: &LegTable) -> BTreeSet<Roads> {
    if table.n() <= splits::MOST_STATIONS {
        splits::cuts(table)
    } else {
        few::cuts(table)
    }
}

/// No round crosses such a cut as often as it has to.
fn bars_all(cut: &Roads, given: &Roads) -> bool {
    cut.len() < 2 || (cut.len() == 3 && cut.is_subset(given))
}

/// The road of a cut of three that the two others leave no room for.
fn third(cut: &Roads, given: &Roads) -> Option<Road> {
    let others: Vec<Road> = cut.difference(given).copied().collect();
    match others[..] {
        [third] if cut.len() == 3 => Some(third),
        _ => None,
    }
}

/// The roads of a two-way table.
pub fn roads(table: &LegTable) -> Roads {
    table.legs().into_iter().filter(|(i, j)| i < j).collect()
}

fn both_ways(roads: &Roads) -> Vec<Leg> {
    roads.iter().flat_map(|&(i, j)| [(i, j), (j, i)]).collect()
}
