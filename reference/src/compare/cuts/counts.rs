//! Cut steps in numbers.

use crate::card;
use crate::cut::laws::{CutStep, Said};
use crate::cut::splits;
use crate::gen::must::NO_ROADS;
use crate::state::End;

/// Cut steps that came out as is said of them, by what they did.
#[derive(Clone, Debug, Default, PartialEq, Eq)]
pub struct CutCounts {
    /// Those that gave none, up to 12 stations by what said so: a cut of no road, else one
    /// of one road, else one of three must-drive roads, else a road that would do both.
    pub no_road: u64,
    pub one_road: u64,
    pub three_must: u64,
    pub both: u64,
    /// Those that added must-drive roads.
    pub forced: u64,
    /// Those that removed roads.
    pub dropped: u64,
    /// Those that added must-drive roads and left the state.
    pub only_must: u64,
    /// Those that changed nothing.
    pub left: u64,
    /// Those on states whose end was none before.
    pub ended: u64,
    /// Those on more than 12 stations that changed something.
    pub wide: u64,
    /// Those with must-drive roads that a watched round drives.
    pub in_class: u64,
    /// Those refused with 7, 11 and 12.
    pub bad_states: u64,
    pub not_two_way: u64,
    pub stray: u64,
    /// Rows of cut steps to rest in which several changed something.
    pub in_a_row: u64,
    /// Runs in turns with cut steps between them that added up to one run, and those in
    /// which a cut step changed the state.
    pub turns: u64,
    pub turns_broken: u64,
    /// Stable states after a cut step had removed roads.
    pub stable: u64,
}

impl CutCounts {
    pub fn add(&mut self, other: &CutCounts) {
        for (sum, count) in self.each_mut().into_iter().zip(other.clone().each_mut()) {
            *sum += *count;
        }
    }

    /// Is there a cut step of each kind?
    pub fn complete(&self) -> bool {
        self.clone().each_mut().into_iter().all(|count| *count > 0)
    }

    pub fn each_mut(&mut self) -> [&mut u64; 18] {
        [
            &mut self.no_road,
            &mut self.one_road,
            &mut self.three_must,
            &mut self.both,
            &mut self.forced,
            &mut self.dropped,
            &mut self.only_must,
            &mut self.left,
            &mut self.ended,
            &mut self.wide,
            &mut self.in_class,
            &mut self.bad_states,
            &mut self.not_two_way,
            &mut self.stray,
            &mut self.in_a_row,
            &mut self.turns,
            &mut self.turns_broken,
            &mut self.stable,
        ]
    }

    /// Notes a cut step in which nothing is wrong.
    pub fn note(&mut self, step: &CutStep, in_class: bool) {
        match step.after.number {
            card::BAD_WORK_STATE => self.bad_states += 1,
            card::NOT_TWO_WAY => self.not_two_way += 1,
            card::STRAY_ROAD => self.stray += 1,
            _ if step.before.end == End::None => self.ended += 1,
            _ => self.note_working(step, in_class),
        }
    }

    fn note_working(&mut self, step: &CutStep, in_class: bool) {
        let few = step.before.n as usize <= splits::MOST_STATIONS;
        let removed = step.after.removed > 0;
        self.in_class += u64::from(in_class && step.given != NO_ROADS);
        self.wide += u64::from(!few && !step.changes_nothing());
        self.left += u64::from(step.changes_nothing());
        self.forced += u64::from(step.must_grew());
        self.dropped += u64::from(removed);
        self.only_must += u64::from(step.must_grew() && !removed);
        if few && step.gives_none() {
            self.note_none(&Said::by_splits(step));
        }
    }

    fn note_none(&mut self, said: &Said) {
        let count = if said.no_road {
            &mut self.no_road
        } else if said.one_road {
            &mut self.one_road
        } else if said.three_must {
            &mut self.three_must
        } else {
            &mut self.both
        };
        *count += 1;
    }
}
