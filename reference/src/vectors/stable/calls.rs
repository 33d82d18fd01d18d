//! Calls from an opening to a stable state.

use crate::fast;
use crate::gen::{any_table, plant_round, Xorshift};
use crate::program::LIMIT;
use crate::script::Script;
use crate::state::{End, WorkState};
use crate::table::LegTable;

/// A call on the way to a stable state, or on it.
#[derive(Clone, Copy, Debug)]
pub enum Call {
    Sweep,
    Chain,
    Pass(u64),
    Run(u32),
}

impl Call {
    pub fn add(self, script: &mut Script) {
        match self {
            Call::Sweep => script.sweep(),
            Call::Chain => script.chain(),
            Call::Pass(seed) => script.pass(seed),
            Call::Run(budget) => script.run(budget),
        }
    }

    /// The plain run of many stations takes long.
    pub fn after(self, state: WorkState) -> WorkState {
        match self {
            Call::Sweep => fast::sweep(state).state,
            Call::Chain => fast::chain(state).state,
            Call::Pass(seed) => fast::pass(state, seed).state,
            Call::Run(budget) => fast::run(state, budget).state,
        }
    }

    fn by_hand(self) -> bool {
        !matches!(self, Call::Run(_))
    }
}

/// Calls by hand and runs in turns, in any order.
pub fn calls(rng: &mut Xorshift, n: usize) -> Vec<Call> {
    let call = |rng: &mut Xorshift| match rng.below(8) {
        0 => Call::Sweep,
        1 => Call::Chain,
        2..=4 => Call::Pass(rng.between(1, n) as u64),
        _ => Call::Run(rng.between(1, n + 4) as u32),
    };
    let count = rng.between(3, 6);
    (0..count).map(|_| call(rng)).collect()
}

/// What calls lead to, and what they would if those by hand left place and mark.
fn led_to(opened: WorkState, calls: &[Call]) -> [WorkState; 2] {
    let (mut state, mut kept) = (opened, opened);
    for call in calls {
        state = call.after(state);
        let WorkState { place, mark, .. } = kept;
        kept = call.after(kept);
        if call.by_hand() {
            kept = WorkState {
                place,
                mark,
                ..kept
            };
        }
    }
    [state, kept]
}

pub type Fits = fn(WorkState, &[Call]) -> bool;

/// Does a call by hand strike a leg in mid-cycle, and the last run one more before it
/// ends stable?
pub fn strikes_amid(opened: WorkState, calls: &[Call]) -> bool {
    let [state, kept] = led_to(opened, calls);
    let ran = fast::run(state, u32::MAX);
    state != kept && ran.removed > 0 && ran.state.end == End::Stable
}

/// Does the last run strike legs that it would not have come to with place and mark kept?
pub fn needs_reopening(opened: WorkState, calls: &[Call]) -> bool {
    let ended = |state| fast::run(state, u32::MAX).state;
    let [late, early] = led_to(opened, calls).map(ended);
    late.end == End::Stable && early.end == End::Stable && late.rows != early.rows
}

/// A table of any family, mostly with a round, and calls on it.
pub fn drawn(rng: &mut Xorshift, n: usize, fits: Fits) -> (LegTable, u64, Vec<Call>) {
    loop {
        let mut table = any_table(rng, n);
        if rng.percent(70) {
            plant_round(rng, &mut table);
        }
        let limit = rng.pick(&[1, 2, LIMIT]);
        let calls = calls(rng, n);
        if fits(WorkState::opened(&table, limit), &calls) {
            return (table, limit, calls);
        }
    }
}
