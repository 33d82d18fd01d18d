//! Must-drive roads for cut steps on the current state.

use crate::compare::Session;
use crate::gen::must::{common, roads_of_round, some_roads, stray, together};
use crate::gen::must::{two_of_three, NO_ROADS};
use crate::state::Rows;

impl Session<'_> {
    /// Mostly sound ones that a watched round drives; the earlier ones are those that an
    /// earlier cut step has handed back.
    pub fn draw_must(&mut self, earlier: &Rows) -> Rows {
        let chance = self.rng.pick(&[10, 30, 60, 100]);
        match self.rng.below(12) {
            0 | 1 => NO_ROADS,
            // Other calls may have struck one of them.
            2 => *earlier,
            3 | 4 => self.standing(earlier),
            5 => self.draw_standing(),
            6 => self.draw_stray(earlier),
            7 | 8 => self.part_of_a_round(chance),
            _ => together(&self.part_of_a_round(chance), &self.standing(earlier)),
        }
    }

    /// Those of the roads that the table still has.
    pub fn standing(&self, must: &Rows) -> Rows {
        common(must, &self.state.rows)
    }

    /// Any roads of the table.
    pub fn draw_standing(&mut self) -> Rows {
        if self.rng.percent(30) {
            return two_of_three(&mut self.rng, &self.state.rows);
        }
        let chance = self.rng.pick(&[5, 20, 40, 100]);
        some_roads(&mut self.rng, &self.state.rows, chance)
    }

    pub fn draw_stray(&mut self, sound: &Rows) -> Rows {
        let sound = self.standing(sound);
        stray(&mut self.rng, &self.state, &sound)
    }

    /// Roads of a watched round, each with this chance.
    fn part_of_a_round(&mut self, chance: usize) -> Rows {
        let rounds = &self.watch.rounds;
        if rounds.is_empty() {
            return NO_ROADS;
        }
        let round = roads_of_round(&rounds[self.rng.below(rounds.len())]);
        some_roads(&mut self.rng, &round, chance)
    }
}
