//! What no sequence of calls may do to the opened table: lose a leg that one of
//! its rounds drives, or end with none although there is a round. After cut steps this is
//! said of the rounds that drive every must-drive road they were given.

use std::mem;

use crate::rounds::rounds;
use crate::state::{End, Rows, WorkState};

/// Tables of more stations have too many rounds to try.
pub const MOST_STATIONS: u64 = 8;

#[derive(Clone)]
pub struct Watch {
    /// Every round of the opened table where it is small, else the known one; of these,
    /// those that drive all must-drive roads that cut steps were given.
    pub rounds: Vec<Vec<usize>>,
    driven: Rows,
}

impl Watch {
    pub fn nothing() -> Watch {
        Watch::over(Vec::new())
    }

    /// Watches the table of a state that was just opened.
    pub fn new(opened: &WorkState, known_round: Option<&Vec<usize>>) -> Watch {
        if opened.n <= MOST_STATIONS {
            Watch::over(rounds(&opened.table()))
        } else {
            Watch::over(known_round.into_iter().cloned().collect())
        }
    }

    fn over(rounds: Vec<Vec<usize>>) -> Watch {
        let mut driven = [0; 64];
        for round in &rounds {
            for (row, &next) in driven.iter_mut().zip(round) {
                *row |= 1 << (next - 1);
            }
        }
        Watch { rounds, driven }
    }

    /// Watches only some of the rounds from here on.
    pub fn narrow(&mut self, watched: impl Fn(&[usize]) -> bool) {
        let mut rounds = mem::take(&mut self.rounds);
        rounds.retain(|round| watched(round));
        *self = Watch::over(rounds);
    }

    /// What a state that the calls have led to does wrong.
    pub fn fault(&self, state: &WorkState) -> Option<&'static str> {
        let lost = |(driven, row): (&u64, &u64)| driven & !row != 0;
        if self.driven.iter().zip(&state.rows).any(lost) {
            Some("a leg that a round of the opened table drives is gone")
        } else if state.end == End::None && !self.rounds.is_empty() {
            Some("the end is none, but the opened table has a round")
        } else {
            None
        }
    }
}
