//! Counts of passes that gave none as a station is out of reach.

use crate::graph;
use crate::hand::Handled;
use crate::state::{End, WorkState};

/// Passes by hand that gave none on a table with an unreached station, by what
/// their levels alone would have said.
#[derive(Clone, Debug, Default, PartialEq, Eq)]
pub struct IslandCounts {
    /// Nothing: there is no inner level.
    pub no_level: u64,
    /// Nothing: each inner level is over the limit.
    pub over_limit: u64,
    /// None too: no choice on a level uses the unreached stations.
    pub level: u64,
}

impl IslandCounts {
    pub fn add(&mut self, other: &IslandCounts) {
        self.no_level += other.no_level;
        self.over_limit += other.over_limit;
        self.level += other.level;
    }

    /// Notes a pass that was not refused.
    pub fn note(&mut self, before: &WorkState, seed: u64, passed: &Handled) {
        if before.end == End::None || passed.state.end != End::None {
            return;
        }
        let table = before.table();
        let levels = graph::levels(&table, seed as usize);
        if graph::unreached(&table, &levels).is_empty() {
            return;
        }
        let inner = graph::inner(&levels);
        let count = if inner.is_empty() {
            &mut self.no_level
        } else if inner.iter().all(|level| level.len() as u64 > before.limit) {
            &mut self.over_limit
        } else {
            &mut self.level
        };
        *count += 1;
    }
}
