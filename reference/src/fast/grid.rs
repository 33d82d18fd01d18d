//! The steps of a run over rows and columns kept side by side.

use super::bits::{all_stations, bit, indices, transposed};
use super::chain::Chains;
use super::flood::Flood;
use super::idle::Idle;
use super::legs::{Legs, Levels};
use super::matching::spare_stations;
use super::sweep::sweep_rows;
use super::Outcome;
use crate::state::{Rows, WorkState};

/// The legs of one table, with the working space of a pass and what is told of
/// passes beforehand.
pub struct Grid<I> {
    n: usize,
    pub legs: Legs,
    split: Split,
    idle: I,
}

/// What a separator leaves: for each component the stations of the separator
/// that can take it in an out-choice and in an in-choice.
pub struct Split {
    pub count: usize,
    pub out: Rows,
    pub into: Rows,
}

impl<I: Idle> Grid<I> {
    pub fn new(state: &WorkState) -> Grid<I> {
        let n = state.n as usize;
        Grid {
            n,
            legs: Legs::new(&state.rows, n),
            split: Split {
                count: 0,
                out: [0; 64],
                into: [0; 64],
            },
            idle: I::new(),
        }
    }

    /// One step of a run: a sweep at place 0, a chain step at place 1, a pass
    /// elsewhere.
    #[inline]
    pub fn step(&mut self, place: u64, limit: u32) -> Outcome {
        let outcome = match place {
            0 => self.sweep(),
            1 => self.chain(),
            place => self.pass(place as usize - 2, limit),
        };
        if outcome.removed > 0 {
            self.idle.forget();
        }
        outcome
    }

    fn sweep(&mut self) -> Outcome {
        let outcome = sweep_rows(&mut self.legs.rows[..self.n]);
        if outcome.removed > 0 {
            self.legs.columns = transposed(&self.legs.rows, self.n);
        }
        outcome
    }

    fn chain(&mut self) -> Outcome {
        let Some(chains) = Chains::of(&self.legs.rows[..self.n]) else {
            return Outcome::NONE;
        };
        for first in indices(chains.firsts) {
            self.legs.columns[first] &= !bit(usize::from(chains.last[first]));
        }
        Outcome {
            removed: chains.strike(&mut self.legs.rows),
            none: false,
        }
    }

    /// A pass; the seed is the index of its bit.
    pub fn pass(&mut self, seed: usize, limit: u32) -> Outcome {
        if self.idle.knows(seed) || self.tells_at_once(seed) {
            return Outcome::NOTHING;
        }
        let levels = self.legs.levels(seed);
        if levels.reached != all_stations(self.n) {
            return Outcome::NONE;
        }
        if !self.tells(&levels, limit) {
            let outcome = self.work_through(&levels, limit);
            if outcome.removed > 0 || outcome.none {
                return outcome;
            }
        }
        self.idle.learn(seed);
        Outcome::NOTHING
    }

    /// Is a pass told to change nothing before any of its levels is filtered by?
    pub fn tells_pass(&mut self, seed: usize, limit: u32) -> bool {
        let levels = self.legs.levels(seed);
        let reached = levels.reached == all_stations(self.n);
        self.tells_at_once(seed) || reached && self.tells(&levels, limit)
    }

    /// Around a seed next to all other stations there is no inner level.
    #[inline]
    fn tells_at_once(&self, seed: usize) -> bool {
        I::TELLS && self.legs.neighbours(seed) | bit(seed) == all_stations(self.n)
    }

    #[inline]
    fn tells(&mut self, levels: &Levels, limit: u32) -> bool {
        self.idle.tells(&self.legs, &mut self.split, levels, limit)
    }

    fn work_through(&mut self, levels: &Levels, limit: u32) -> Outcome {
        let mut outcome = Outcome::NOTHING;
        for &separator in levels.inner() {
            if separator.count_ones() > limit {
                continue;
            }
            match self.filter(separator) {
                Some(removed) => outcome.removed += removed,
                None => {
                    outcome.none = true;
                    break;
                }
            }
        }
        outcome
    }

    /// Legs removed by one separator, or nothing for the verdict none.
    fn filter(&mut self, separator: u64) -> Option<u64> {
        let (mut bare_out, mut bare_into) = (0, 0);
        for i in indices(separator) {
            let inside = self.legs.rows[i] & separator;
            bare_into |= inside;
            if inside != 0 {
                bare_out |= bit(i);
            }
        }
        self.split(separator)?;
        let Split { count, out, into } = &self.split;
        let spare_out = spare_stations(&out[..*count], separator, bare_out)?;
        let spare_into = spare_stations(&into[..*count], separator, bare_into)?;
        Some(self.strike(separator, spare_out, spare_into))
    }

    /// Finds the components of the stations outside a separator. Nothing comes
    /// back when no choice can use them all: one that no station can take, or
    /// more of them than stations.
    fn split(&mut self, separator: u64) -> Option<()> {
        let most = separator.count_ones() as usize;
        let mut rest = all_stations(self.n) & !separator;
        let mut count = 0;
        while rest != 0 {
            if count == most {
                return None;
            }
            let flood = Flood::new(&self.legs, rest);
            rest &= !flood.component;
            let (out, into) = flood.ends(&self.legs, separator);
            if out == 0 || into == 0 {
                return None;
            }
            self.split.out[count] = out;
            self.split.into[count] = into;
            count += 1;
        }
        self.split.count = count;
        Some(())
    }

    /// Keeps a leg inside the separator only if both its ends are spare.
    #[inline]
    fn strike(&mut self, separator: u64, spare_out: u64, spare_into: u64) -> u64 {
        let mut removed = 0;
        for i in indices(separator) {
            let kept = if spare_out & bit(i) != 0 {
                spare_into
            } else {
                0
            };
            let gone = self.legs.rows[i] & separator & !kept;
            removed += u64::from(gone.count_ones());
            self.legs.strike(i, gone);
        }
        removed
    }
}
