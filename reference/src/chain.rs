//! The chain step: legs that would close a chain of compulsory legs before it
//! covers all stations.

use std::collections::BTreeSet;

use crate::card;
use crate::hand::{self, Handled, Verdict};
use crate::state::{self, WorkState};
use crate::table::{Leg, LegTable};

pub fn chain(state: WorkState) -> Handled {
    if state::bad(&state) {
        return hand::refused(card::BAD_WORK_STATE, state);
    }
    hand::by_hand(state, chain_table)
}

pub fn chain_table(table: &mut LegTable) -> Verdict {
    let n = table.n();
    let compulsory = compulsory_legs(table);
    if two_meet(&compulsory) || loop_lengths(&compulsory).any(|length| length < n) {
        return Verdict::None;
    }
    let gone: Vec<Leg> = chains(&compulsory)
        .filter(|chain| chain.len() < n)
        .map(|chain| closing_leg(&chain))
        .collect();
    table.strike(&gone);
    Verdict::Undecided
}

/// The legs that are their station's only leg out or their target's only leg
/// in.
pub fn compulsory_legs(table: &LegTable) -> BTreeSet<Leg> {
    let legs = table.legs().into_iter();
    legs.filter(|&(i, j)| table.successors(i).len() == 1 || table.predecessors(j).len() == 1)
        .collect()
}

/// Whether two of the legs leave or enter one station.
fn two_meet(legs: &BTreeSet<Leg>) -> bool {
    legs.iter().any(|one| {
        legs.iter()
            .any(|other| one != other && (one.0 == other.0 || one.1 == other.1))
    })
}

/// Of legs of which no two meet, for each station on a loop the number of
/// stations of that loop.
fn loop_lengths(legs: &BTreeSet<Leg>) -> impl Iterator<Item = usize> + '_ {
    legs.iter().filter_map(|&(start, _)| {
        let walk = walk(legs, start);
        legs.contains(&closing_leg(&walk)).then_some(walk.len())
    })
}

/// Of legs of which no two meet, the chains that can't be lengthened, each as
/// its stations in order.
fn chains(legs: &BTreeSet<Leg>) -> impl Iterator<Item = Vec<usize>> + '_ {
    let entered = |station| legs.iter().any(|&(_, j)| j == station);
    let starts = legs.iter().map(|&(i, _)| i);
    starts
        .filter(move |&start| !entered(start))
        .map(|start| walk(legs, start))
}

/// The stations met from a start along the legs, up to the last one or to the
/// one before the start again.
fn walk(legs: &BTreeSet<Leg>, start: usize) -> Vec<usize> {
    let mut stations = vec![start];
    loop {
        let last = stations[stations.len() - 1];
        match legs.iter().find(|&&(i, _)| i == last) {
            Some(&(_, next)) if next != start => stations.push(next),
            _ => return stations,
        }
    }
}

/// The leg from the last station of a walk to its first.
fn closing_leg(stations: &[usize]) -> Leg {
    (stations[stations.len() - 1], stations[0])
}
