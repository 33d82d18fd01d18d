//! Previews in numbers.

use crate::card;
use crate::preview::laws::Previewed;
use crate::preview::HandStep;
use crate::state::End;

/// Previews that came out as is said of them, by what they showed.
#[derive(Clone, Debug, Default, PartialEq, Eq)]
pub struct PreviewCounts {
    /// Those that showed legs and no end of none, by what they were of.
    pub sweeps: u64,
    pub chains: u64,
    pub passes: u64,
    /// Those that showed none, with legs and without.
    pub none_with_legs: u64,
    pub none_alone: u64,
    /// Those that showed nothing, and those of them whose end was none before.
    pub nothing: u64,
    pub ended: u64,
    /// Those refused with 7, and those with 8.
    pub bad_states: u64,
    pub stray_seeds: u64,
    /// Those on stable states that calls from an opened sheet have led to.
    pub stable: u64,
    /// Those on more than 12 stations that showed something.
    pub wide: u64,
    /// Those that were followed by their step.
    pub steps: u64,
    /// Those that were made a second time.
    pub again: u64,
}

impl PreviewCounts {
    pub fn add(&mut self, other: &PreviewCounts) {
        for (sum, count) in self.each_mut().into_iter().zip(other.clone().each_mut()) {
            *sum += *count;
        }
    }

    /// Is there a preview of each kind?
    pub fn complete(&self) -> bool {
        self.clone().each_mut().into_iter().all(|count| *count > 0)
    }

    pub fn each_mut(&mut self) -> [&mut u64; 13] {
        [
            &mut self.sweeps,
            &mut self.chains,
            &mut self.passes,
            &mut self.none_with_legs,
            &mut self.none_alone,
            &mut self.nothing,
            &mut self.ended,
            &mut self.bad_states,
            &mut self.stray_seeds,
            &mut self.stable,
            &mut self.wide,
            &mut self.steps,
            &mut self.again,
        ]
    }

    /// Notes a preview in which nothing is wrong.
    pub fn note(&mut self, previewed: &Previewed) {
        match previewed.preview.number {
            card::BAD_WORK_STATE => self.bad_states += 1,
            card::STRAY_SEED => self.stray_seeds += 1,
            _ if previewed.before.end == End::None => self.ended += 1,
            _ if previewed.shows_nothing() => self.nothing += 1,
            _ => self.note_change(previewed),
        }
    }

    fn note_change(&mut self, previewed: &Previewed) {
        let count = match (previewed.shows_none(), previewed.step) {
            (true, _) if previewed.shows_legs() => &mut self.none_with_legs,
            (true, _) => &mut self.none_alone,
            (false, HandStep::Sweep) => &mut self.sweeps,
            (false, HandStep::Chain) => &mut self.chains,
            (false, HandStep::Pass(_)) => &mut self.passes,
        };
        *count += 1;
        self.wide += u64::from(previewed.before.n > 12);
    }
}
