//! Previews with one fault each.

use std::cell::Cell;

use reference::preview::NO_LEGS;
use reference::state::Rows;
use reference::{card, Calls, End, Fast, HandStep, Preview, WorkState};

#[derive(Clone, Copy, Debug, PartialEq, Eq)]
pub enum Fault {
    /// 8 comes before 7.
    SeedFirst,
    /// A stray seed is taken: everywhere, or where the end is none.
    StraySeedTaken,
    SeedUncheckedAtNone,
    /// A bad state is taken where the end is none.
    BadStateTaken,
    /// The state is handed back as the step leaves it, with its place, or with its end.
    StepDone,
    PlaceCleared,
    EndHandedBack,
    /// A refusal shows the whole table, or an end other than the given one.
    RefusedTable,
    RefusedOpen,
    RefusedNone,
    /// A state whose end is none is previewed as if it were open; the end stays, or the legs
    /// are not shown.
    EndedAsOpen,
    EndedShowsLegs,
    EndedShowsOpen,
    /// A leg that does not stand is shown, or each leg the other way.
    OwnLeg,
    Transposed,
    /// Legs that go leave a stable end.
    StableKept,
    /// Nothing goes, and yet a stable state is open after it, or an open one stable.
    StableOpened,
    StableWithoutLegs,
    /// The table that is left is shown, or one leg of it more.
    LeftShown,
    OneLegMore,
    /// None where nothing goes.
    NoneForNothing,
    /// The legs that the step would add.
    Reversed,
    /// No leg is shown where the verdict is none, or all are.
    NoneLegsDropped,
    NoneShowsAll,
    /// The last row is not shown.
    LastRowLost,
    /// Another step is previewed: a pass with the next seed or with the highest limit, the
    /// other step without a seed, a sweep and the step, or a whole run.
    NextSeed,
    LimitIgnored,
    SweepForChain,
    ChainForSweep,
    SweptBefore,
    WholeRun,
    /// The end is the given one, or that of a step whose verdict is not none.
    GivenEnd,
    NoneHidden,
    /// Every second preview shows nothing.
    EverySecondEmpty,
    /// A leg of a stable state is shown.
    LegOnStable,
}

pub const FAULTS: [Fault; 35] = [
    Fault::SeedFirst,
    Fault::StraySeedTaken,
    Fault::SeedUncheckedAtNone,
    Fault::BadStateTaken,
    Fault::StepDone,
    Fault::PlaceCleared,
    Fault::EndHandedBack,
    Fault::RefusedTable,
    Fault::RefusedOpen,
    Fault::RefusedNone,
    Fault::EndedAsOpen,
    Fault::EndedShowsLegs,
    Fault::EndedShowsOpen,
    Fault::OwnLeg,
    Fault::Transposed,
    Fault::StableKept,
    Fault::StableOpened,
    Fault::StableWithoutLegs,
    Fault::LeftShown,
    Fault::OneLegMore,
    Fault::NoneForNothing,
    Fault::Reversed,
    Fault::NoneLegsDropped,
    Fault::NoneShowsAll,
    Fault::LastRowLost,
    Fault::NextSeed,
    Fault::LimitIgnored,
    Fault::SweepForChain,
    Fault::ChainForSweep,
    Fault::SweptBefore,
    Fault::WholeRun,
    Fault::GivenEnd,
    Fault::NoneHidden,
    Fault::EverySecondEmpty,
    Fault::LegOnStable,
];

fn is_stray(state: &WorkState, step: HandStep) -> bool {
    matches!(step, HandStep::Pass(seed) if !(1..=state.n).contains(&seed))
}

fn transposed(legs: &Rows) -> Rows {
    let bit = |from: usize, to: usize| (legs[to] >> from & 1) << to;
    std::array::from_fn(|from| (0..64).map(|to| bit(from, to)).sum())
}

/// What this work would show of the given state.
fn shown(state: WorkState, after: &WorkState) -> Preview {
    Preview {
        number: card::TAKEN,
        legs: std::array::from_fn(|at| state.rows[at] & !after.rows[at]),
        end: after.end,
        state,
    }
}

impl Fault {
    /// `odd` is turned by each preview.
    pub fn preview(self, state: WorkState, step: HandStep, odd: &Cell<bool>) -> Preview {
        let sound = Fast.preview(state, step);
        odd.set(!odd.get());
        let nothing = sound.legs == NO_LEGS && sound.end == state.end;
        if sound.number != card::TAKEN {
            self.refused(state, step, sound)
        } else if state.end == End::None {
            self.ended(state, step, sound)
        } else if let Some(after) = self.other_step(state, step, odd.get()) {
            shown(state, &after)
        } else if nothing {
            self.without_change(state, sound)
        } else {
            self.with_change(state, step, sound)
        }
    }

    fn refused(self, state: WorkState, step: HandStep, mut sound: Preview) -> Preview {
        let bad = sound.number == card::BAD_WORK_STATE;
        let ended = state.end == End::None;
        match self {
            Fault::SeedFirst if is_stray(&state, step) => sound.number = card::STRAY_SEED,
            Fault::StraySeedTaken if !bad => sound.number = card::TAKEN,
            Fault::SeedUncheckedAtNone if !bad && ended => sound.number = card::TAKEN,
            Fault::BadStateTaken if bad && ended => sound.number = card::TAKEN,
            Fault::RefusedTable => sound.legs = state.rows,
            Fault::RefusedOpen => sound.end = End::Open,
            Fault::RefusedNone => sound.end = End::None,
            _ => {}
        }
        sound
    }

    fn ended(self, state: WorkState, step: HandStep, mut sound: Preview) -> Preview {
        let end = End::Open;
        let as_open = Fast.preview(WorkState { end, ..state }, step);
        match self {
            Fault::EndedAsOpen => (sound.legs, sound.end) = (as_open.legs, as_open.end),
            Fault::EndedShowsLegs => sound.legs = as_open.legs,
            Fault::EndedShowsOpen => sound.end = End::Open,
            _ => {}
        }
        sound
    }

    /// On a state that the step leaves as it is.
    fn without_change(self, state: WorkState, mut sound: Preview) -> Preview {
        match self {
            Fault::OwnLeg => {
                sound.legs[1] = 2;
                sound.end = End::Open;
            }
            Fault::StableOpened => sound.end = End::Open,
            Fault::StableWithoutLegs => sound.end = End::Stable,
            Fault::NoneForNothing => sound.end = End::None,
            Fault::LeftShown => {
                sound.legs = state.rows;
                sound.end = End::Open;
            }
            Fault::OneLegMore => self.one_more(&mut sound),
            Fault::LegOnStable if state.end == End::Stable => self.one_more(&mut sound),
            _ => {}
        }
        sound
    }

    /// The first leg that stands and is not shown.
    fn one_more(self, sound: &mut Preview) {
        let left: Rows = std::array::from_fn(|at| sound.state.rows[at] & !sound.legs[at]);
        if let Some(at) = left.iter().position(|row| *row != 0) {
            sound.legs[at] |= 1 << left[at].trailing_zeros();
            sound.end = End::Open;
        }
    }

    fn with_change(self, state: WorkState, step: HandStep, mut sound: Preview) -> Preview {
        let none = sound.end == End::None;
        let after = step.make(&Fast, state).state;
        match self {
            Fault::StepDone => sound.state = after,
            Fault::PlaceCleared => (sound.state.place, sound.state.mark) = (0, false),
            Fault::EndHandedBack => sound.state.end = sound.end,
            Fault::Transposed => sound.legs = transposed(&sound.legs),
            Fault::StableKept if !none => sound.end = state.end,
            Fault::LeftShown => sound.legs = after.rows,
            Fault::OneLegMore if !none => self.one_more(&mut sound),
            Fault::Reversed => sound.legs = NO_LEGS,
            Fault::NoneLegsDropped if none => sound.legs = NO_LEGS,
            Fault::NoneShowsAll if none => sound.legs = state.rows,
            Fault::LastRowLost => {
                if let Some(at) = sound.legs.iter().rposition(|row| *row != 0) {
                    sound.legs[at] = 0;
                }
            }
            Fault::GivenEnd => sound.end = state.end,
            Fault::NoneHidden if none && sound.legs == NO_LEGS => sound.end = state.end,
            Fault::NoneHidden => sound.end = End::Open,
            _ => {}
        }
        sound
    }

    /// What is left by the step that is previewed in place of the given one.
    fn other_step(self, state: WorkState, step: HandStep, odd: bool) -> Option<WorkState> {
        let limit = 64;
        let swept = Fast.sweep(state).state;
        Some(match (self, step) {
            (Fault::NextSeed, HandStep::Pass(seed)) => Fast.pass(state, seed % state.n + 1).state,
            (Fault::LimitIgnored, _) => step.make(&Fast, WorkState { limit, ..state }).state,
            (Fault::SweepForChain, HandStep::Chain) => swept,
            (Fault::ChainForSweep, HandStep::Sweep) => Fast.chain(state).state,
            (Fault::SweptBefore, _) => step.make(&Fast, swept).state,
            (Fault::WholeRun, _) => Fast.run(state, u32::MAX).state,
            (Fault::EverySecondEmpty, _) if odd => state,
            _ => return None,
        })
    }
}
