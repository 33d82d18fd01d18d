//! Passes that change nothing, told without filtering by any level.
//!
//! A group of stations outside a level is known by one of them, its pivot. A station
//! of the level with a leg to what leads to the pivot, and another one with a leg from
//! what the pivot leads to, are joined by a walk through the component that the group
//! lies in. There may be more such pairs, and several groups in one component: so the
//! answer is one-sided.

use super::bits::{indices, lowest_bit, without_lone};
use super::grid::Split;
use super::legs::Legs;
use super::matching::assigned;
use crate::state::Rows;

/// With more levels there is an inner one of a single station, and no pair is in it.
const MOST_LEVELS: usize = 33;

/// Each group above a level has a station in the next level and needs another one in
/// the level itself: for more groups there are too few stations. Above a level that
/// the limit skips there may be more; they are not told.
const MOST_GROUPS: usize = 32;

/// The working space of the test.
pub struct Pivots {
    /// For each inner level the ends of the pairs that walks by the seed join below it.
    below: [(u64, u64); MOST_LEVELS],
    /// The groups above a level.
    groups: [Group; MOST_GROUPS],
    count: usize,
}

/// Stations outside a level that hang together.
#[derive(Clone, Copy, Default)]
struct Group {
    part: u64,
    ahead: Led,
    back: Led,
}

/// What a pivot leads to along legs, or what leads to it.
#[derive(Clone, Copy, Default)]
struct Led {
    all: u64,
    /// All that these stations have legs to, or from.
    beyond: u64,
}

impl Pivots {
    pub fn new() -> Pivots {
        Pivots {
            below: [(0, 0); MOST_LEVELS],
            groups: [Group::default(); MOST_GROUPS],
            count: 0,
        }
    }

    /// True only if the pass with these levels, which have all stations, changes
    /// nothing.
    pub fn tell(&mut self, legs: &Legs, split: &mut Split, levels: &[u64], limit: u32) -> bool {
        if levels.len() > MOST_LEVELS || !self.rise(legs, levels) {
            return false;
        }
        let (mut room, mut edge) = (0, 0);
        self.count = 0;
        for k in (1..levels.len() - 1).rev() {
            let (level, above) = (levels[k], levels[k + 1]);
            room |= above;
            if !self.regroup(legs, room, edge, above) {
                return false;
            }
            edge = above;
            if level.count_ones() <= limit && !self.leaves(legs, split, level, k) {
                return false;
            }
        }
        true
    }

    /// The levels below each inner level are one group with the seed as its pivot. Does
    /// the seed lead to all stations, and do all lead to it?
    fn rise(&mut self, legs: &Legs, levels: &[u64]) -> bool {
        let mut room = levels[0];
        let mut ahead = Led::from(&legs.rows, room, room);
        let mut back = Led::from(&legs.columns, room, room);
        let last = levels.len() - 1;
        for k in 1..last {
            let level = levels[k];
            self.below[k] = ends(ahead, back, level);
            room |= level;
            ahead = ahead.on(&legs.rows, room, level);
            back = back.on(&legs.columns, room, level);
        }
        ahead.fills(&legs.rows, room, levels[last]) && back.fills(&legs.columns, room, levels[last])
    }

    /// The groups of `room`, which the level `last` has joined. Only the stations of
    /// `edge`, the level before, have legs to it. Are there not too many?
    fn regroup(&mut self, legs: &Legs, room: u64, edge: u64, last: u64) -> bool {
        let mut left = room;
        let mut count = 0;
        for g in 0..self.count {
            let group = self.groups[g];
            // Not so if another group has taken it in.
            if group.part & !left == 0 {
                let group = group.on(legs, left, edge, last);
                left &= !group.part;
                self.groups[count] = group;
                count += 1;
            }
        }
        while left != 0 && count < MOST_GROUPS {
            let group = Group::around(legs, left, lowest_bit(left));
            left &= !group.part;
            self.groups[count] = group;
            count += 1;
        }
        self.count = count;
        left == 0
    }

    /// Do the pairs known of level k suffice to tell that it leaves all legs? Every
    /// station of it has a mark, as each leads to all others.
    #[inline]
    fn leaves(&self, legs: &Legs, split: &mut Split, level: u64, k: usize) -> bool {
        let Split { out, into, .. } = split;
        let count = self.count;
        // The levels below are one group more.
        if count >= level.count_ones() as usize {
            return false;
        }
        for (g, group) in self.groups[..count].iter().enumerate() {
            (out[g], into[g]) = ends(group.ahead, group.back, level);
        }
        (out[count], into[count]) = self.below[k];
        settles(&out[..=count], level, &legs.columns) && settles(&into[..=count], level, &legs.rows)
    }
}

impl Group {
    /// What hangs together with a pivot in `room`.
    #[inline]
    fn around(legs: &Legs, room: u64, pivot: u64) -> Group {
        let ahead = Led::from(&legs.rows, room, pivot);
        let back = Led::from(&legs.columns, room, pivot);
        Group {
            part: grown(room, ahead.all | back.all, |i| legs.neighbours(i)),
            ahead,
            back,
        }
    }

    /// The group with what hangs together with it in `room`, which the level `last`
    /// has joined. Of its stations so far, those of `edge` alone have legs to the rest.
    #[inline]
    fn on(self, legs: &Legs, room: u64, edge: u64, last: u64) -> Group {
        let ahead = self.ahead.on(&legs.rows, room, last);
        let back = self.back.on(&legs.columns, room, last);
        let mut part = self.part | ahead.all | back.all;
        let rest = room & !part;
        if rest != 0 {
            let outer = part & (!self.part | edge);
            let next = union(outer, |i| legs.neighbours(i)) & rest;
            part |= grown(rest, next, |i| legs.neighbours(i));
        }
        Group { part, ahead, back }
    }
}

impl Led {
    /// What `start` leads to inside `room`.
    #[inline]
    fn from(words: &Rows, room: u64, start: u64) -> Led {
        let mut rest = room & !start;
        let mut last = start;
        let mut beyond = 0;
        while last != 0 {
            let near = union(last, |i| words[i]);
            beyond |= near;
            last = near & rest;
            rest &= !last;
        }
        Led {
            all: start | room & !rest,
            beyond,
        }
    }

    /// The same in a room that a level has joined.
    #[inline]
    fn on(self, words: &Rows, room: u64, level: u64) -> Led {
        let more = Led::from(words, room & !self.all, self.beyond & level);
        Led {
            all: self.all | more.all,
            beyond: self.beyond | more.beyond,
        }
    }

    /// Does it come to all of a room that the last level joins?
    #[inline]
    fn fills(self, words: &Rows, room: u64, level: u64) -> bool {
        let rest = (room | level) & !self.all;
        grown(rest, self.beyond & level, |i| words[i]) == rest
    }
}

/// The first and the second stations of the pairs of a level that walks by a pivot
/// join.
#[inline]
fn ends(ahead: Led, back: Led, level: u64) -> (u64, u64) {
    let (leave, enter) = (ahead.beyond & level, back.beyond & level);
    (without_lone(enter, leave), without_lone(leave, enter))
}

/// The groups can have stations of their own that fit, whichever one with a leg
/// inside the level is left over.
#[inline]
fn settles(fits: &[u64], level: u64, words: &Rows) -> bool {
    match assigned(fits, level) {
        Some(spare) => spare == level || union(level, |i| words[i]) & level & !spare == 0,
        None => false,
    }
}

/// The stations of `room` that the words lead to from `start`, a part of it.
#[inline]
fn grown(room: u64, start: u64, word: impl Fn(usize) -> u64) -> u64 {
    let mut rest = room & !start;
    let mut last = start;
    while last != 0 && rest != 0 {
        last = union(last, &word) & rest;
        rest &= !last;
    }
    room & !rest
}

#[inline]
fn union(set: u64, word: impl Fn(usize) -> u64) -> u64 {
    indices(set).fold(0, |union, i| union | word(i))
}
