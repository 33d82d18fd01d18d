//! Two-way tables and must-drive roads, drawn so that their cut steps differ.

use super::all_roads;
use crate::cut::splits::cuts;
use crate::cut::{cut, roads, Cut, Roads};
use crate::gen::must::some_roads;
use crate::gen::{random_round, two_way, Xorshift};
use crate::program::LIMIT;
use crate::state::{End, Rows, WorkState};
use crate::table::{Leg, LegTable};

/// Roads at random, mostly with those of a round.
pub fn table(rng: &mut Xorshift, n: usize) -> LegTable {
    let density = rng.pick(&[20, 40, 60]);
    let mut roads: Vec<Leg> = all_roads(1, n).filter(|_| rng.percent(density)).collect();
    if rng.percent(75) {
        roads.extend((1..).zip(random_round(rng, n)));
    }
    two_way(n, &roads)
}

/// A cut step from an opened state, and the one after it.
pub struct Steps {
    table: LegTable,
    given: Roads,
    first: Cut,
    second: Cut,
}

impl Steps {
    fn new(table: &LegTable, must: &Rows) -> Steps {
        let first = cut(WorkState::opened(table, LIMIT), must);
        Steps {
            given: roads(&LegTable::from_rows(table.n(), must)),
            second: cut(first.state, &first.must),
            table: table.clone(),
            first,
        }
    }

    fn new_roads(&self) -> usize {
        let must = LegTable::from_rows(self.table.n(), &self.first.must);
        roads(&must).len() - self.given.len()
    }
}

pub type Fits = fn(&Steps) -> bool;

pub const FITS: [Fits; 9] = [
    forces,
    drops,
    forces_and_drops,
    idle,
    few_roads,
    three_must_drive,
    at_odds,
    forces_next,
    none_next,
];

pub fn drawn(rng: &mut Xorshift, n: usize, fits: Fits) -> (LegTable, Rows) {
    loop {
        let table = table(rng, n);
        let chance = rng.pick(&[0, 20, 40]);
        let must = some_roads(rng, &table.rows(), chance);
        if fits(&Steps::new(&table, &must)) {
            return (table, must);
        }
    }
}

fn none(cut: &Cut) -> bool {
    cut.state.end == End::None
}

fn forces(steps: &Steps) -> bool {
    steps.first.removed == 0 && steps.new_roads() > 0
}

fn drops(steps: &Steps) -> bool {
    steps.first.removed > 0 && steps.new_roads() == 0
}

fn forces_and_drops(steps: &Steps) -> bool {
    steps.first.removed > 0 && steps.new_roads() > 0
}

/// Though there are must-drive roads and a cut of three.
fn idle(steps: &Steps) -> bool {
    let changed = none(&steps.first) || steps.first.removed > 0 || steps.new_roads() > 0;
    !changed && !steps.given.is_empty() && !cuts(&steps.table).is_empty()
}

/// Is none given for a cut of at most one road?
fn few_roads(steps: &Steps) -> bool {
    cuts(&steps.table).iter().any(|cut| cut.len() < 2)
}

/// Is none given for three must-drive roads alone?
fn three_must_drive(steps: &Steps) -> bool {
    let of_three = |cut: &Roads| cut.len() == 3 && cut.is_subset(&steps.given);
    !few_roads(steps) && cuts(&steps.table).iter().any(of_three)
}

/// Is none given for a road that would do both?
fn at_odds(steps: &Steps) -> bool {
    none(&steps.first) && !few_roads(steps) && !three_must_drive(steps)
}

/// The road that goes leaves a cut of two roads to the next step.
fn forces_next(steps: &Steps) -> bool {
    steps.first.removed > 0 && steps.second.must != steps.first.must
}

/// What the first step does is for the second one to give none.
fn none_next(steps: &Steps) -> bool {
    !none(&steps.first) && none(&steps.second)
}
