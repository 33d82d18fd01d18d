//! The cut step.
//!
//! A spanning tree has, for each of its roads, the word of the stations behind it. A split
//! is the sum of the words of the tree's roads across it, so one with at most three roads
//! is the sum of at most three words: these are tried.

use super::bits::{all_stations, bit, indices, lowest, transposed};
use super::{bad, by_hand, Outcome};
use crate::card::{self, Number};
use crate::cut::{Cut, FEWEST_STATIONS};
use crate::state::{End, Rows, WorkState};

pub fn cut(mut state: WorkState, must: &Rows) -> Cut {
    let mut must = *must;
    let number = checked(&state, &must);
    if number != card::TAKEN || state.end == End::None {
        return Cut {
            number,
            state,
            must,
            removed: 0,
        };
    }
    let outcome = cut_rows(&mut state.rows, &mut must, state.n as usize);
    let handled = by_hand(state, outcome);
    Cut {
        number,
        state: handled.state,
        must,
        removed: handled.removed,
    }
}

/// The number of the first check that fails.
fn checked(state: &WorkState, must: &Rows) -> Number {
    if bad(state) {
        return card::BAD_WORK_STATE;
    }
    let n = state.n as usize;
    if n < FEWEST_STATIONS || transposed(&state.rows, n) != state.rows {
        return card::NOT_TWO_WAY;
    }
    let mut pairs = must.iter().zip(&state.rows);
    let stands = pairs.all(|(must, row)| must & !row == 0);
    if !stands || transposed(must, n) != *must {
        return card::STRAY_ROAD;
    }
    card::TAKEN
}

fn cut_rows(rows: &mut Rows, must: &mut Rows, n: usize) -> Outcome {
    let Some(marks) = Network { rows, must, n }.marks() else {
        return Outcome::NONE;
    };
    let mut removed = 0;
    for i in 0..n {
        removed += u64::from(marks.dropped[i].count_ones());
        rows[i] &= !marks.dropped[i];
        must[i] |= marks.forced[i];
    }
    Outcome {
        removed,
        none: false,
    }
}

/// The roads that have to be driven and those that go, each in both directions.
struct Marks {
    forced: Rows,
    dropped: Rows,
}

/// The tables at the start.
struct Network<'a> {
    rows: &'a Rows,
    must: &'a Rows,
    n: usize,
}

impl Network<'_> {
    /// The marks of all splits, or nothing for the verdict none.
    fn marks(&self) -> Option<Marks> {
        let mut words = [0; 64];
        let words = self.tree_words(&mut words)?;
        let mut marks = Marks {
            forced: [0; 64],
            dropped: [0; 64],
        };
        for (c, &third) in words.iter().enumerate() {
            self.judge(&mut marks, third)?;
            for (b, &second) in words[..c].iter().enumerate() {
                let pair = third ^ second;
                self.judge(&mut marks, pair)?;
                for first in &words[..b] {
                    self.judge(&mut marks, pair ^ first)?;
                }
            }
        }
        let mut both = marks.forced.iter().zip(&marks.dropped);
        let apart = both.all(|(forced, dropped)| forced & dropped == 0);
        apart.then_some(marks)
    }

    /// Grows a tree from station 1. Each station that joins has a word, of those that hang
    /// on it and itself. Nothing comes back if some station is not reached.
    fn tree_words<'a>(&self, words: &'a mut Rows) -> Option<&'a [u64]> {
        let (mut seen, mut count) = (1, 0);
        while seen != all_stations(self.n) {
            let leads_out = |&at: &usize| self.rows[at] & !seen != 0;
            let at = indices(seen).find(leads_out)?;
            let next = lowest(self.rows[at] & !seen);
            for word in &mut words[..count] {
                *word |= (*word >> at & 1) << next;
            }
            words[count] = bit(next);
            seen |= bit(next);
            count += 1;
        }
        Some(&words[..count])
    }

    /// Marks what a split says, or nothing if it leaves no round. Few splits have anything
    /// to say.
    #[inline]
    fn judge(&self, marks: &mut Marks, group: u64) -> Option<()> {
        let side = self.smaller_side(group);
        match roads_across(self.rows, side) {
            roads @ 0..=3 => self.judge_few(marks, side, roads),
            _ => Some(()),
        }
    }

    #[inline(never)]
    fn judge_few(&self, marks: &mut Marks, side: u64, roads: u32) -> Option<()> {
        if roads < 2 {
            return None;
        }
        if roads == 2 {
            mark(&mut marks.forced, side, |i| self.rows[i]);
            return Some(());
        }
        match roads_across(self.must, side) {
            3 => return None,
            2 => mark(&mut marks.dropped, side, |i| self.rows[i] & !self.must[i]),
            _ => {}
        }
        Some(())
    }

    #[inline]
    fn smaller_side(&self, group: u64) -> u64 {
        if 2 * group.count_ones() <= self.n as u32 {
            group
        } else {
            group ^ all_stations(self.n)
        }
    }
}

/// The roads between a side and the other stations, or some number above three.
#[inline]
fn roads_across(rows: &Rows, side: u64) -> u32 {
    let mut count = 0;
    for i in indices(side) {
        count += (rows[i] & !side).count_ones();
        if count > 3 {
            break;
        }
    }
    count
}

/// Marks the roads between a side and the other stations, of those that stand by `legs`.
fn mark(marks: &mut Rows, side: u64, legs: impl Fn(usize) -> u64) {
    for i in indices(side) {
        let across = legs(i) & !side;
        marks[i] |= across;
        for j in indices(across) {
            marks[j] |= bit(i);
        }
    }
}
