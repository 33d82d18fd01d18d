//! What W-209 says of the answers of cut steps.

use std::collections::BTreeSet;

use super::{number_due, roads, splits, Cut, Roads};
use crate::card;
use crate::gen::must::roads_of_round;
use crate::stable::Fault;
use crate::state::{End, Rows, WorkState};
use crate::table::LegTable;

/// A cut step with what it was given.
#[derive(Clone, Copy, Debug, PartialEq, Eq)]
pub struct CutStep {
    pub before: WorkState,
    pub given: Rows,
    pub after: Cut,
}

impl CutStep {
    pub fn taken(&self) -> bool {
        self.after.number == card::TAKEN
    }

    /// Was it taken on a state whose end was not none?
    pub fn works(&self) -> bool {
        self.taken() && self.before.end != End::None
    }

    pub fn gives_none(&self) -> bool {
        self.works() && self.after.state.end == End::None
    }

    pub fn must_grew(&self) -> bool {
        self.after.must != self.given
    }

    /// Are both tables, place, mark and end those that were given, and is nothing removed?
    pub fn changes_nothing(&self) -> bool {
        (self.after.state, self.after.removed) == (self.before, 0) && !self.must_grew()
    }
}

/// Does a table have all bits of another one?
fn within(part: &Rows, whole: &Rows) -> bool {
    part.iter()
        .zip(whole)
        .all(|(part, whole)| part & !whole == 0)
}

/// Does the round drive each of these roads one way or the other?
pub fn drives_all(round: &[usize], must: &Rows) -> bool {
    within(must, &roads_of_round(round))
}

/// Of a cut step by itself.
pub fn fault(step: &CutStep) -> Fault {
    if step.after.number != number_due(&step.before, &step.given) {
        Some("a cut step has another number than its tables")
    } else if !step.taken() {
        let kept = step.changes_nothing();
        (!kept).then_some("a refused cut step changes something")
    } else if step.before.end == End::None {
        let kept = step.changes_nothing();
        (!kept).then_some("a cut step changes something, but the end is none")
    } else if step.gives_none() {
        fault_of_none(step)
    } else {
        fault_of_tables(step).or_else(|| fault_of_place(step))
    }
}

fn fault_of_none(step: &CutStep) -> Fault {
    let end = End::None;
    let due = WorkState { end, ..step.before };
    let kept = (step.after.state, step.after.removed) == (due, 0) && !step.must_grew();
    (!kept).then_some("a cut step gives none and changes more than the end")
}

fn fault_of_tables(step: &CutStep) -> Fault {
    let (before, after, must) = (&step.before, &step.after.state, &step.after.must);
    if !within(&after.rows, &before.rows) {
        Some("a cut step brings a leg back")
    } else if before.legs() - after.legs() != step.after.removed {
        Some("a cut step tells other removals than the legs that went")
    } else if !within(&step.given, must) {
        Some("a cut step takes a must-drive road back")
    } else if number_due(after, must) != card::TAKEN {
        Some("a cut step would be refused on what it hands back")
    } else {
        None
    }
}

fn fault_of_place(step: &CutStep) -> Fault {
    let due = match step.after.removed {
        0 => step.before,
        _ => WorkState {
            rows: step.after.state.rows,
            place: 0,
            mark: false,
            end: End::Open,
            ..step.before
        },
    };
    (step.after.state != due).then_some("a cut step leaves another place, mark or end")
}

/// Of a cut step beside rounds of its table that drive all given roads: all of them or
/// some.
pub fn fault_beside_rounds(step: &CutStep, rounds: &[Vec<usize>]) -> Fault {
    if !step.works() || rounds.is_empty() {
        return None;
    }
    let survives = |round: &Vec<usize>| {
        let mut legs = round.iter().zip(&step.after.state.rows);
        legs.all(|(next, row)| row >> (next - 1) & 1 == 1)
    };
    if step.gives_none() {
        Some("a cut step gives none, but a round drives all must-drive roads")
    } else if !rounds.iter().all(survives) {
        Some("a cut step loses a round that drives all must-drive roads")
    } else if !rounds
        .iter()
        .all(|round| drives_all(round, &step.after.must))
    {
        Some("a cut step adds a must-drive road that a round does not drive")
    } else {
        None
    }
}

/// What the cuts of a table say together.
#[derive(Clone, Debug, Default, PartialEq, Eq)]
pub struct Said {
    /// None, by a cut of no road, of one road or of three must-drive roads.
    pub no_road: bool,
    pub one_road: bool,
    pub three_must: bool,
    /// The roads of two-road cuts.
    pub forced: Roads,
    /// The roads that two must-drive ones leave no room for.
    pub dropped: Roads,
}

impl Said {
    pub fn of(cuts: &BTreeSet<Roads>, given: &Roads) -> Said {
        let mut said = Said::default();
        for cut in cuts {
            let must = cut.intersection(given).count();
            match (cut.len(), must) {
                (0, _) => said.no_road = true,
                (1, _) => said.one_road = true,
                (2, _) => said.forced.extend(cut),
                (3, 2) => said.dropped.extend(cut - given),
                (3, 3) => said.three_must = true,
                _ => {}
            }
        }
        said
    }

    /// On a step that works, by trying every split.
    pub fn by_splits(step: &CutStep) -> Said {
        let table = step.before.table();
        Said::of(&splits::cuts(&table), &roads_in(table.n(), &step.given))
    }

    /// None by one of the cuts?
    pub fn none(&self) -> bool {
        self.no_road || self.one_road || self.three_must
    }

    /// Would one road become must-drive and go?
    pub fn both(&self) -> bool {
        !self.forced.is_disjoint(&self.dropped)
    }
}

fn roads_in(n: usize, rows: &Rows) -> Roads {
    roads(&LegTable::from_rows(n, rows))
}

/// Of a cut step beside every split of its stations.
pub fn fault_beside_splits(step: &CutStep) -> Fault {
    if !step.works() {
        return None;
    }
    let n = step.before.n as usize;
    let said = Said::by_splits(step);
    let [before, given] = [&step.before.rows, &step.given].map(|rows| roads_in(n, rows));
    let [left, must] = [&step.after.state.rows, &step.after.must].map(|rows| roads_in(n, rows));
    match (said.none(), said.both(), step.gives_none()) {
        (true, _, false) => Some("a cut step goes on, but no round crosses one of the cuts"),
        (false, true, false) => Some("a cut step goes on, but one road must be driven and go"),
        (false, false, true) => Some("a cut step gives none, but no cut says so"),
        (_, _, true) => None,
        _ if must != &given | &said.forced => {
            Some("a cut step hands back other must-drive roads than its cuts say")
        }
        _ if left != &before - &said.dropped => {
            Some("a cut step leaves other roads than its cuts say")
        }
        _ => None,
    }
}
