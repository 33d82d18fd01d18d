//! Steps by hand are previewed before they are made, on any state, and on stable states all
//! of them are.

mod counts;

use super::call::{Answer, Call};
use super::{watch, Found, Session};
use crate::preview::laws::{fault, fault_beside_first, fault_beside_rounds};
use crate::preview::laws::{fault_beside_step, fault_on_stable, Previewed};
use crate::preview::HandStep;
use crate::rounds::rounds;
use crate::stable::{stray_seeds, Fault};
use crate::state::WorkState;

pub use self::counts::PreviewCounts;

/// On more stations there are fewer previews.
const SMALL: u64 = 12;

impl Session<'_> {
    /// A preview of a step by hand on the current state, which is made next. It has draws of
    /// its own; on stable states there are other previews.
    pub fn preview_before(&mut self, call: &Call) -> Found<Option<Previewed>> {
        let step = call.hand_step().filter(|_| !self.on_stable);
        let Some(step) = step else {
            return Ok(None);
        };
        let mut first = None;
        self.apart(|session| {
            if session.rng.percent(chance(session.state.n)) {
                first = Some(session.previewed(step)?);
            }
            Ok(())
        })?;
        Ok(first)
    }

    /// One in four is made a second time.
    fn previewed(&mut self, step: HandStep) -> Found<Previewed> {
        let first = self.preview(step)?;
        if self.rng.percent(25) {
            let second = self.preview(step)?;
            self.hold_previewed(&second, fault_beside_first(&second, &first))?;
            self.counts.previews.again += 1;
        }
        Ok(first)
    }

    fn preview(&mut self, step: HandStep) -> Found<Previewed> {
        let before = self.state;
        let answer = self.call_alone(Call::Preview { step })?;
        let Answer::Preview(preview) = answer else {
            unreachable!("a preview answers {answer}");
        };
        Ok(Previewed {
            before,
            step,
            preview: *preview,
        })
    }

    /// Holds a preview to the step that was made after it. In a difference the preview is
    /// told, and not the step.
    pub fn hold_to_step(&mut self, previewed: Option<Previewed>, answer: &Answer) -> Found<()> {
        let (Some(previewed), Answer::Handled(step)) = (previewed, answer) else {
            return Ok(());
        };
        let fault = fault_beside_step(&previewed, step);
        if fault.is_some() {
            self.steps.pop();
        }
        self.hold_previewed(&previewed, fault)?;
        self.counts.previews.steps += 1;
        Ok(())
    }

    fn hold_previewed(&mut self, previewed: &Previewed, fault: Fault) -> Found<()> {
        let answer = Answer::Preview(Box::new(previewed.preview));
        self.hold_to(previewed.before, fault, &answer)
    }

    /// Every step on a stable state that calls from an opened sheet have led to, and passes
    /// with stray seeds. Above 12 stations one in four.
    pub fn previews_on(&mut self, stable: &WorkState) -> Found<()> {
        self.put(*stable);
        let stray = stray_seeds(stable.n).map(HandStep::Pass);
        for step in HandStep::all(stable.n).chain(stray) {
            if stable.n <= SMALL || self.rng.percent(25) {
                let previewed = self.preview(step)?;
                self.hold_previewed(&previewed, fault_on_stable(&previewed))?;
                self.counts.previews.stable += 1;
            }
        }
        Ok(())
    }

    /// Holds a preview on the current state to what is said of it alone.
    pub fn hold_preview(&mut self, call: &Call, answer: &Answer) -> Found<()> {
        let (Call::Preview { step }, Answer::Preview(preview)) = (call, answer) else {
            return Ok(());
        };
        let previewed = Previewed {
            before: self.state,
            step: *step,
            preview: **preview,
        };
        let fault = fault(&previewed).or_else(|| self.fault_beside_rounds(&previewed));
        if let Some(reason) = fault {
            return Err(self.difference(reason, answer));
        }
        self.counts.previews.note(&previewed);
        Ok(())
    }

    /// On few stations beside all rounds of its table, also where none are watched.
    fn fault_beside_rounds(&self, previewed: &Previewed) -> Fault {
        if !previewed.works() || previewed.shows_nothing() {
            return None;
        }
        if previewed.before.n <= watch::MOST_STATIONS {
            fault_beside_rounds(previewed, &rounds(&previewed.before.table()))
        } else {
            fault_beside_rounds(previewed, &self.watch.rounds)
        }
    }
}

/// The chance of a preview before a step, in percent.
fn chance(n: u64) -> usize {
    match n {
        0..=SMALL => 100,
        _ => 50,
    }
}

/// The chance that the plain calls answer a preview, in percent. They answer most steps that
/// are previewed, and a step on a set takes long.
pub fn plain_chance(n: u64, on_stable: bool) -> usize {
    match n {
        0..=SMALL if on_stable => 10,
        0..=8 => 50,
        9..=SMALL => 20,
        13..=24 => 5,
        _ => 1,
    }
}
