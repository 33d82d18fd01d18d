//! Cut steps amid other calls on two-way tables, and on states that refuse them.

mod counts;
mod must;

use super::call::{Answer, Call};
use super::stable::Way;
use super::watch::{self, Watch};
use super::{draw, Found, Session};
use crate::cut::laws::{drives_all, fault, fault_beside_rounds, fault_beside_splits, CutStep};
use crate::cut::Cut;
use crate::gen::must::NO_ROADS;
use crate::gen::{any_two_way, split_budget, Xorshift};
use crate::state::{End, Rows, WorkState};
use crate::turns::{budget_of, fault as fault_of_turns, Turn};
use crate::written::written_sheet;

pub use self::counts::CutCounts;

/// Mostly few stations: on these all rounds and all splits are tried.
fn size(rng: &mut Xorshift) -> usize {
    match rng.below(40) {
        0..=27 => rng.between(3, 8),
        28..=35 => rng.between(9, 16),
        36..=38 => rng.between(17, 32),
        _ => rng.pick(&[33, 48, 63, 64]),
    }
}

/// So many cut steps in a row bring a small table to rest.
const MOST_IN_A_ROW: usize = 8;

/// Runs in turns on more stations take long.
const MOST_IN_TURNS: u64 = 16;

impl Session<'_> {
    /// A cut step on the current state, with any roads.
    pub fn drawn_cut(&mut self) -> Found<()> {
        let must = self.draw_must(&NO_ROADS);
        self.cut(&must)?;
        Ok(())
    }

    /// A cut step that the following calls don't see.
    pub fn cut_and_back(&mut self) -> Found<()> {
        self.apart(|session| session.and_back(Session::drawn_cut))
    }

    /// A list of calls with cut steps among them, on a two-way table of no sheet.
    pub fn cuts_of_no_sheet(&mut self) -> Found<()> {
        self.apart(|session| {
            session.open_two_way()?;
            let mut must = NO_ROADS;
            for _ in 0..session.rng.between(2, 4) {
                must = session.cuts_amid(must)?;
                session.any_call()?;
                // After none there is nothing to compare.
                if session.state.end == End::None {
                    break;
                }
            }
            let budget = u32::MAX;
            session.call(Call::Run { budget })?;
            session.hold_stable()?;
            let must = session.standing(&must);
            session.cuts_to_rest(must)?;
            session.cuts_at_any_place()?;
            session.refused_cuts(&must)
        })
    }

    fn open_two_way(&mut self) -> Found<()> {
        let n = size(&mut self.rng);
        let (table, round) = any_two_way(&mut self.rng, n);
        let (limit, sheet) = (draw::good_limit(&mut self.rng), written_sheet(&table));
        self.watch = Watch::nothing();
        self.call(Call::OpenWritten { limit, sheet })?;
        self.watch = Watch::new(&self.state, round.as_ref());
        self.way = Way::default();
        Ok(())
    }

    /// Cut steps of one kind; the must-drive roads that they hand back.
    fn cuts_amid(&mut self, earlier: Rows) -> Found<Rows> {
        let must = self.draw_must(&earlier);
        let any = self.draw_standing();
        match self.rng.below(8) {
            0 => self.and_back(|session| session.refused_cuts(&must))?,
            1 => self.and_back(|session| session.turns_with_cuts(must))?,
            // Few rounds drive any roads, and most cut steps give none.
            2 | 3 => self.and_back(|session| session.cut_on_the_way(&any).map(|_| ()))?,
            4 => return self.cuts_to_rest(must),
            _ => return Ok(self.cut_on_the_way(&must)?.must),
        }
        Ok(earlier)
    }

    fn cut(&mut self, must: &Rows) -> Found<Cut> {
        let must = Box::new(*must);
        match self.call(Call::Cut { must })? {
            Answer::Cut(cut) => Ok(*cut),
            answer => unreachable!("a cut step answers {answer}"),
        }
    }

    /// A cut step of a list of calls from an opened sheet.
    fn cut_on_the_way(&mut self, must: &Rows) -> Found<Cut> {
        let cut = self.cut(must)?;
        self.way.note_cut(&cut);
        self.hold_stable()?;
        Ok(cut)
    }

    /// Stray must-drive roads; then a table with a leg more or less, which may not be
    /// two-way, at any place; and a bad state.
    fn refused_cuts(&mut self, must: &Rows) -> Found<()> {
        let stray = self.draw_stray(must);
        self.cut(&stray)?;
        self.watch = Watch::nothing();
        let one_leg_off = draw::one_leg_off(&mut self.rng, &self.state);
        let moved = draw::moved(&mut self.rng, &one_leg_off);
        let spoilt = draw::spoilt(&mut self.rng, &self.state);
        for state in [one_leg_off, moved, spoilt] {
            self.put(state);
            let must = self.rng.pick(&[must, &stray]);
            self.cut(must)?;
        }
        Ok(())
    }

    /// Cut steps, each with the roads that the one before handed back, and runs between
    /// them, until nothing changes.
    fn cuts_to_rest(&mut self, mut must: Rows) -> Found<Rows> {
        let mut changes = 0;
        for _ in 0..MOST_IN_A_ROW {
            let before = (self.state, must);
            must = self.cut_on_the_way(&must)?.must;
            let changed = (self.state, must) != before;
            changes += u64::from(changed);
            if self.rng.percent(50) {
                let run = draw::run(&mut self.rng, &self.state);
                self.call(run)?;
                self.hold_stable()?;
            }
            if !changed && self.state.rows == before.0.rows {
                break;
            }
            must = self.standing(&must);
        }
        self.counts.cuts.in_a_row += u64::from(changes > 1);
        Ok(must)
    }

    /// Runs in turns with a cut step, which is a call by hand, between each two of them.
    /// They are held to one run where no such step changes the state.
    fn turns_with_cuts(&mut self, mut must: Rows) -> Found<()> {
        let kept = self.state;
        if kept.n > MOST_IN_TURNS {
            return Ok(());
        }
        let budgets = split_budget(&mut self.rng, &kept);
        let mut turns = Vec::new();
        let mut idle = true;
        for &budget in &budgets {
            let before = self.state;
            must = self.cut(&self.standing(&must))?.must;
            idle &= self.state == before;
            let (before, ran) = (self.state, self.run(budget)?);
            turns.push(Turn {
                before,
                budget,
                ran,
            });
        }
        if !idle {
            self.counts.cuts.turns_broken += 1;
            return Ok(());
        }
        self.put(kept);
        let one = self.run(budget_of(&budgets).expect("parts of a budget"))?;
        self.hold_to(kept, fault_of_turns(&turns, &one), &Answer::Ran(one))?;
        self.counts.cuts.turns += 1;
        Ok(())
    }

    /// Each end, with any place and mark. Nothing is claimed of the rounds.
    fn cuts_at_any_place(&mut self) -> Found<()> {
        self.watch = Watch::nothing();
        let kept = self.state;
        for end in [End::Open, End::Stable, End::None] {
            let moved = draw::moved(&mut self.rng, &kept);
            self.put(WorkState { end, ..moved });
            let must = self.draw_standing();
            self.cut(&must)?;
        }
        Ok(())
    }

    /// Calls that the following ones don't see, and neither their must-drive roads.
    fn and_back(&mut self, calls: impl FnOnce(&mut Self) -> Found<()>) -> Found<()> {
        let (state, watch, way) = (self.state, self.watch.clone(), self.way);
        calls(self)?;
        self.put(state);
        self.watch = watch;
        self.way = way;
        Ok(())
    }

    /// Holds a cut step on the current state to what is said of it. From here on only the
    /// rounds are watched that drive its roads.
    pub fn hold_cut(&mut self, call: &Call, answer: &Answer) -> Found<()> {
        let (Call::Cut { must }, Answer::Cut(cut)) = (call, answer) else {
            return Ok(());
        };
        let step = CutStep {
            before: self.state,
            given: **must,
            after: **cut,
        };
        if step.taken() {
            self.watch.narrow(|round| drives_all(round, must));
        }
        let small = self.state.n <= watch::MOST_STATIONS;
        let fault = fault(&step)
            .or_else(|| fault_beside_rounds(&step, &self.watch.rounds))
            .or_else(|| small.then(|| fault_beside_splits(&step)).flatten());
        if let Some(reason) = fault {
            return Err(self.difference(reason, answer));
        }
        let in_class = !self.watch.rounds.is_empty();
        self.counts.cuts.note(&step, in_class);
        Ok(())
    }
}
