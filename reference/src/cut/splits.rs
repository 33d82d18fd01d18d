//! The cuts of few roads by trying every split.

use std::collections::BTreeSet;

use super::{roads, Road, Roads};
use crate::table::LegTable;

/// Tables of more stations have too many splits to try.
pub const MOST_STATIONS: usize = 12;

/// Every cut of at most three roads.
pub fn cuts(table: &LegTable) -> BTreeSet<Roads> {
    let n = table.n();
    let roads = roads(table);
    // One group of a split as a word of stations; neither group is empty.
    let groups = 1..(1 << n) - 1;
    groups.filter_map(|group| cut_of(&roads, group)).collect()
}

/// The roads between a group and the other stations, if they are at most three.
pub fn cut_of(roads: &Roads, group: u64) -> Option<Roads> {
    let within = |station: usize| group >> (station - 1) & 1 == 1;
    let between = roads.iter().filter(|(i, j)| within(*i) != within(*j));
    let cut: Vec<Road> = between.copied().take(4).collect();
    (cut.len() <= 3).then(|| cut.into_iter().collect())
}
