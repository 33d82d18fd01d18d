//! Passes and runs by marks that ask for no way inside their component, and counts of
//! the tables that tell them from the sound ones.

use super::call::{Answer, Call};
use super::{Found, Session};
use crate::choices::SeparatorGraph;
use crate::fast;
use crate::gen::{one_way_valleys, Xorshift};
use crate::graph;
use crate::hand::{Handled, Verdict};
use crate::pass::pass_by;
use crate::run::{run_with, Ran};
use crate::state::{End, WorkState, LARGEST_LIMIT};
use crate::table::LegTable;

/// Runs on tables of more stations are not counted, and not all seeds are tried on
/// them: plain calls take long there.
pub const MOST_STATIONS: usize = 12;

/// A pass by marks that stand wherever their component can be entered and left.
pub fn pass_without_ways(table: &mut LegTable, seed: usize, limit: usize) -> Verdict {
    pass_by(table, seed, limit, |table, level| {
        let components = graph::components(table, level);
        SeparatorGraph::by_ways(table, level, &components, |_, component, _| {
            component.clone()
        })
    })
}

pub fn run_without_ways(state: WorkState, budget: u32) -> Ran {
    run_with(state, budget, pass_without_ways)
}

/// Would a pass by hand on the table have come out otherwise without ways? They bar
/// marks, so that it could only have struck less and gone on.
fn tells(table: &LegTable, limit: u64, seed: u64, passed: &Handled) -> bool {
    let none = passed.state.end == End::None;
    if passed.removed == 0 && !none {
        return false;
    }
    let mut otherwise = table.clone();
    let verdict = pass_without_ways(&mut otherwise, seed as usize, limit as usize);
    (verdict == Verdict::None) != none || otherwise.rows() != passed.state.rows
}

/// A seed whose pass on the table tells, looked for among some of many.
fn telling_seed(rng: &mut Xorshift, table: &LegTable) -> Option<u64> {
    let opened = WorkState::opened(table, LARGEST_LIMIT);
    let seeds = rng.order(table.n()).into_iter().take(MOST_STATIONS);
    let mut seeds = seeds.map(|seed| seed as u64);
    seeds.find(|&seed| tells(table, LARGEST_LIMIT, seed, &fast::pass(opened, seed)))
}

/// A table of valleys on which the pass with some seed tells.
pub struct TellingTable {
    pub table: LegTable,
    pub round: Option<Vec<usize>>,
    pub seed: u64,
}

impl TellingTable {
    pub fn drawn(rng: &mut Xorshift, n: usize) -> TellingTable {
        loop {
            let (table, round) = one_way_valleys(rng, n);
            if let Some(seed) = telling_seed(rng, &table) {
                return TellingTable { table, round, seed };
            }
        }
    }
}

/// Tables on which a pass by hand came out otherwise than without ways.
#[derive(Clone, Debug, Default, PartialEq, Eq)]
pub struct ValleyCounts {
    /// It went on and left fewer legs.
    pub struck: u64,
    pub none: u64,
    /// Tables on which a whole run came out otherwise as well.
    pub runs: u64,
}

impl ValleyCounts {
    pub fn add(&mut self, other: &ValleyCounts) {
        self.struck += other.struck;
        self.none += other.none;
        self.runs += other.runs;
    }

    pub fn tables(&self) -> u64 {
        self.struck + self.none
    }

    /// Is there such a table for at least one in twenty sheets, and a run?
    pub fn complete(&self, sheets: u64) -> bool {
        self.tables() * 20 >= sheets && self.struck > 0 && self.none > 0 && self.runs > 0
    }

    pub fn note_pass(&mut self, before: &WorkState, seed: u64, passed: &Handled) {
        if tells(&before.table(), before.limit, seed, passed) {
            match passed.state.end {
                End::None => self.none += 1,
                _ => self.struck += 1,
            }
        }
    }

    pub fn note_run(&mut self, before: &WorkState, budget: u32, ran: &Ran) {
        if before.n as usize <= MOST_STATIONS {
            self.runs += u64::from(run_without_ways(*before, budget) != *ran);
        }
    }
}

impl Session<'_> {
    /// Passes on the opened state with the highest limit, and a whole run that starts
    /// with the one that tells, which the following calls don't see.
    pub fn valleys_and_back(&mut self, telling: u64) -> Found<()> {
        let kept = self.state;
        let limit = LARGEST_LIMIT;
        let wide = WorkState { limit, ..kept };
        for seed in seeds_with(&mut self.rng, kept.n, telling) {
            self.put(wide);
            let answer = self.call(Call::Pass { seed })?;
            if let (true, Answer::Handled(passed)) = (seed == telling, answer) {
                self.counts.valleys.note_pass(&wide, seed, &passed);
            }
        }
        let place = telling + 1;
        let before = WorkState { place, ..wide };
        self.put(before);
        let budget = u32::MAX;
        if let Answer::Ran(ran) = self.call(Call::Run { budget })? {
            self.counts.valleys.note_run(&before, budget, &ran);
        }
        self.put(kept);
        Ok(())
    }
}

/// All seeds of few stations; else the given one and some others.
fn seeds_with(rng: &mut Xorshift, n: u64, given: u64) -> Vec<u64> {
    if n as usize <= MOST_STATIONS {
        return (1..=n).collect();
    }
    let mut seeds = vec![given];
    let others = rng.order(n as usize).into_iter().map(|seed| seed as u64);
    seeds.extend(others.filter(|&seed| seed != given).take(3));
    seeds
}
