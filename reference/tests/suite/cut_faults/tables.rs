//! The tables of a cut step, their cuts, and what is done with them.

use std::collections::BTreeSet;

use reference::cut::laws::Said;
use reference::cut::{roads, splits, Road, Roads};
use reference::gen::must::together;
use reference::state::Rows;
use reference::{card, gen, Cut, End, LegTable, WorkState};

pub fn rows_of(roads: &Roads) -> Rows {
    gen::two_way(64, &Vec::from_iter(roads.iter().copied())).rows()
}

pub fn taken(state: WorkState, must: &Rows) -> Cut {
    Cut {
        number: card::TAKEN,
        state,
        must: *must,
        removed: 0,
    }
}

/// The tables of a step on at most 12 stations.
pub struct Tables {
    pub state: WorkState,
    pub table: LegTable,
    pub must: Rows,
    pub given: Roads,
    pub cuts: BTreeSet<Roads>,
}

impl Tables {
    pub fn new(state: WorkState, must: &Rows) -> Tables {
        let table = state.table();
        Tables {
            state,
            must: *must,
            given: roads(&LegTable::from_rows(table.n(), must)),
            cuts: splits::cuts(&table),
            table,
        }
    }

    pub fn said(&self) -> Said {
        Said::of(&self.cuts, &self.given)
    }

    /// All cuts, of any number of roads.
    pub fn all_cuts(&self) -> impl Iterator<Item = Roads> + '_ {
        let all = roads(&self.table);
        (1..(1_u64 << self.table.n()) - 1).map(move |group| {
            let within = |station: usize| group >> (station - 1) & 1 == 1;
            let between = |&&(i, j): &&Road| within(i) != within(j);
            all.iter().filter(between).copied().collect()
        })
    }

    /// What the cuts are said to say, done by the hand rules.
    pub fn done(&self, said: &Said) -> Cut {
        let mut cut = taken(self.state, &self.must);
        if said.none() || said.both() {
            cut.state.end = End::None;
            return cut;
        }
        self.change(&mut cut, said);
        if cut.removed > 0 {
            (cut.state.place, cut.state.mark) = (0, false);
            cut.state.end = End::Open;
        }
        cut
    }

    /// Changes the tables alone.
    pub fn change(&self, cut: &mut Cut, said: &Said) {
        let gone = rows_of(&said.dropped);
        for (row, gone) in cut.state.rows.iter_mut().zip(gone) {
            *row &= !gone;
        }
        cut.removed = self.state.legs() - cut.state.legs();
        cut.must = together(&self.must, &rows_of(&said.forced));
    }
}
