//! The watch over stable states finds runs and steps by hand that break what is said of
//! them, with no other calls beside them.

use std::collections::BTreeSet;

use reference::compare::{compare_sheet, watch_sheet};
use reference::hand::{Handled, Verdict};
use reference::run::Ran;
use reference::sheet::Opened;
use reference::stable::opened_anew;
use reference::stable::{fault_of_run, fault_of_run_anew, fault_of_sheet};
use reference::stable::{fault_of_state, fault_of_step, fault_of_stray_seed};
use reference::state::{cycle, last_place};
use reference::{card, open, paper, Calls, End, Fast, LegTable, WorkState};

use crate::other_pass::OtherPass;
use crate::other_runs::{other_runs, other_steps};

const STATE: &str = "a stable state is not at place 0 with the mark clear";
const REFUSED: &str = "a step by hand is refused on a stable state";
const REMOVES: &str = "a step by hand removes legs from a stable state";
const NONE: &str = "a step by hand gives none on a stable state";
const CHANGES: &str = "a step by hand removes nothing, but changes a stable state";
const STRAY_TAKEN: &str = "a stray seed is not refused on a stable state";
const STRAY_CHANGES: &str = "a stray seed changes a stable state";
const RUN: &str = "a run on a stable state takes a step or changes it";
const ANEW_STEPS: &str = "a stable state opened anew does not take the steps of one cycle";
const ANEW_STATE: &str = "a stable state opened anew comes to another state";

#[derive(Clone, Copy, Debug, PartialEq, Eq)]
enum RunFault {
    /// A cycle ends stable although its mark is set.
    MarkIgnored,
    /// The same, and the mark stays.
    MarkKept,
    /// A step that removes legs clears the mark.
    MarkCleared,
    /// The pass with the last seed does nothing.
    LastSeedLeftOut,
    /// The chain step does nothing.
    ChainLeftOut,
    /// A cycle ends before the last seed.
    EndsTooEarly,
    /// The same if it ends stable, and the place stays.
    StableTooEarly,
    /// A stable state comes only after a second cycle that removes nothing.
    CycleTooMany,
    /// A stable state is run as if it were opened anew.
    StartsAnew,
}

const RUN_FAULTS: [(RunFault, &str); 9] = [
    (RunFault::MarkIgnored, REMOVES),
    (RunFault::MarkKept, STATE),
    (RunFault::MarkCleared, REMOVES),
    (RunFault::LastSeedLeftOut, REMOVES),
    (RunFault::ChainLeftOut, REMOVES),
    (RunFault::EndsTooEarly, ANEW_STEPS),
    (RunFault::StableTooEarly, STATE),
    (RunFault::CycleTooMany, ANEW_STATE),
    (RunFault::StartsAnew, RUN),
];

impl RunFault {
    /// One step from an open state.
    fn step(self, state: WorkState) -> WorkState {
        let ran = Fast.run(state, 1);
        let (mut after, removed) = (ran.state, ran.removed > 0);
        let last = state.place == last_place(state.n);
        let ends = last && after.end != End::None;
        let marked = state.mark || removed;
        match self {
            RunFault::MarkIgnored if ends => after.end = End::Stable,
            RunFault::MarkKept if ends => (after.end, after.mark) = (End::Stable, marked),
            RunFault::MarkCleared if ends && removed => after.end = End::Stable,
            RunFault::MarkCleared if removed => after.mark = false,
            RunFault::LastSeedLeftOut if last => return idle(state),
            RunFault::ChainLeftOut if state.place == 1 => return idle(state),
            RunFault::EndsTooEarly if after.place == last_place(state.n) => return idle(after),
            RunFault::StableTooEarly if after.place == last_place(state.n) && !after.mark => {
                after.end = End::Stable;
            }
            _ => {}
        }
        after
    }

    fn run(self, mut state: WorkState, budget: u32) -> Ran {
        let mut sum = Fast.run(state, 0);
        if sum.number != card::TAKEN {
            return sum;
        }
        match self {
            RunFault::StartsAnew if state.end == End::Stable => state = opened_anew(&state),
            RunFault::CycleTooMany => return one_cycle_more(state, budget),
            _ => {}
        }
        sum.state = state;
        while sum.state.end == End::Open && sum.steps < budget {
            sum.state = self.step(sum.state);
            sum.steps += 1;
        }
        sum.removed = state.legs() - sum.state.legs();
        sum
    }

    fn calls(self) -> impl Calls {
        other_runs(move |state, budget| self.run(state, budget))
    }
}

/// The state after a step that does nothing.
fn idle(state: WorkState) -> WorkState {
    if state.place < last_place(state.n) {
        let place = state.place + 1;
        return WorkState { place, ..state };
    }
    let anew = opened_anew(&state);
    let end = if state.mark { End::Open } else { End::Stable };
    WorkState { end, ..anew }
}

fn one_cycle_more(state: WorkState, budget: u32) -> Ran {
    let mut ran = Fast.run(state, budget);
    if ran.steps > 0 && ran.state.end == End::Stable {
        let rest = Fast.run(opened_anew(&ran.state), budget - ran.steps);
        (ran.state, ran.steps) = (rest.state, ran.steps + rest.steps);
    }
    ran
}

/// A step by hand on a state, and what the sound one answers.
type StepFault = fn(&WorkState, Handled) -> Handled;

fn opens(_: &WorkState, mut step: Handled) -> Handled {
    if step.number == card::TAKEN && step.state.end == End::Stable {
        step.state.end = End::Open;
    }
    step
}

fn refuses(state: &WorkState, mut step: Handled) -> Handled {
    if step.number == card::TAKEN && state.end == End::Stable {
        step.number = card::BAD_WORK_STATE;
    }
    step
}

fn counts_one(state: &WorkState, mut step: Handled) -> Handled {
    step.removed += u64::from(step.number == card::TAKEN && state.end == End::Stable);
    step
}

fn gives_none(state: &WorkState, mut step: Handled) -> Handled {
    if step.number == card::TAKEN && state.end == End::Stable {
        step.state.end = End::None;
    }
    step
}

fn takes_stray_seed(state: &WorkState, mut step: Handled) -> Handled {
    if step.number == card::STRAY_SEED && state.end == End::Stable {
        step.number = card::TAKEN;
    }
    step
}

fn opens_by_stray_seed(_: &WorkState, mut step: Handled) -> Handled {
    if step.number == card::STRAY_SEED {
        step.state = opened_anew(&step.state);
    }
    step
}

const STEP_FAULTS: [(StepFault, &str); 6] = [
    (opens, CHANGES),
    (refuses, REFUSED),
    (counts_one, REMOVES),
    (gives_none, NONE),
    (takes_stray_seed, STRAY_TAKEN),
    (opens_by_stray_seed, STRAY_CHANGES),
];

/// Why the watches refuse answers, with no other calls beside them, as far as it is said
/// of stable states.
fn reasons(calls: &dyn Calls, seed: u64, sheets: u64) -> BTreeSet<&'static str> {
    let found = (0..sheets).filter_map(|index| watch_sheet(calls, seed, index).err());
    let reasons = found.map(|difference| difference.reason);
    reasons.filter(|reason| reason.contains("stable")).collect()
}

/// The last pass is hardly missed but on the tables made for it.
#[test]
fn the_watch_finds_each_fault_of_runs() {
    for (fault, expected) in RUN_FAULTS {
        for seed in 1..=3 {
            let mut sheets = 0..1_000;
            let found = sheets.any(|index| {
                let watched = watch_sheet(&fault.calls(), seed, index);
                watched.is_err_and(|difference| difference.reason == expected)
            });
            assert!(found, "{fault:?} is not found with seed {seed}");
        }
    }
}

#[test]
fn the_watch_finds_each_fault_of_steps_by_hand() {
    for (fault, expected) in STEP_FAULTS {
        for seed in 1..=3 {
            let found = reasons(&other_steps(fault), seed, 60);
            assert_eq!(found, BTreeSet::from([expected]));
        }
    }
}

/// Beside other calls they are differences.
#[test]
fn the_comparison_finds_each_fault() {
    let differs = |calls: &dyn Calls| {
        let found = (0..60).find_map(|index| compare_sheet(calls, 1, index).err());
        found.is_some_and(|difference| difference.reason == "the fast answer differs")
    };
    for (fault, _) in RUN_FAULTS {
        assert!(differs(&fault.calls()), "{fault:?}");
    }
    for (fault, reason) in STEP_FAULTS {
        assert!(differs(&other_steps(fault)), "{reason}");
    }
}

/// The last call told is the one that is wrong, with what others answer to it.
#[test]
fn the_watch_tells_the_step_by_hand() {
    let calls = other_steps(counts_one);
    let found = (0..60).find_map(|index| watch_sheet(&calls, 1, index).err());
    let text = found.expect("a difference").to_string();
    let answer = |who: &str| text.lines().find_map(|line| line.strip_prefix(who));
    let [tested, fast, plain] = ["  tested: ", "  fast: ", "  plain: "].map(answer);
    assert!(tested.is_some_and(|text| text.starts_with("0 removed 1 state")));
    assert!(fast.is_some_and(|text| text.starts_with("0 removed 0 state")));
    assert_eq!(fast, plain);
}

/// Passes that never strike a leg, in runs and by hand alike, leave stable states that
/// stay as they are: only other calls tell.
#[test]
fn a_rule_that_is_too_weak_everywhere_is_not_found() {
    let weak = OtherPass(|| |_: &mut LegTable, _, _| Verdict::Undecided);
    assert_eq!(reasons(&weak, 1, 200), BTreeSet::new());
    let found = (0..60).find_map(|index| compare_sheet(&weak, 1, index).err());
    let reason = found.map(|difference| difference.reason);
    assert_eq!(reason, Some("the fast answer differs"));
}

/// Each break by itself.
#[test]
fn breaks_by_hand() {
    let opened = open(&paper::NINE_LEGS, 64).state;
    let stable = Fast.run(opened, u32::MAX).state;
    let (anew, cycle) = (opened_anew(&stable), cycle(stable.n));
    assert_eq!((fault_of_state(&stable), cycle), (None, 8));
    assert!(fault_of_state(&WorkState { place: 1, ..stable }).is_some());
    let mark = true;
    assert!(fault_of_state(&WorkState { mark, ..stable }).is_some());

    let step = Fast.pass(stable, 3);
    assert_eq!(fault_of_step(&stable, &step), None);
    let state = opened;
    assert!(fault_of_step(&stable, &Handled { state, ..step }).is_some());
    let stray = Fast.pass(stable, 7);
    assert_eq!(fault_of_stray_seed(&stable, &stray), None);
    let removed = 1;
    assert!(fault_of_stray_seed(&stable, &Handled { removed, ..stray }).is_some());

    let ran = Fast.run(stable, 9);
    assert_eq!(fault_of_run(&stable, &ran), None);
    assert!(fault_of_run(&stable, &Ran { removed, ..ran }).is_some());

    let ran = Fast.run(anew, 7);
    assert_eq!(fault_of_run_anew(&stable, 7, &ran), None);
    assert!(fault_of_run_anew(&stable, 8, &ran).is_some());
    let state = stable;
    assert!(fault_of_run_anew(&stable, 7, &Ran { state, ..ran }).is_some());
    assert!(fault_of_run_anew(&stable, 7, &Ran { number: 7, ..ran }).is_some());
    assert!(fault_of_run_anew(&stable, 7, &Ran { removed, ..ran }).is_some());

    let sheet = Opened {
        number: card::TAKEN,
        place: 0,
        state: anew,
    };
    assert_eq!(fault_of_sheet(&stable, &sheet), None);
    assert!(fault_of_sheet(&stable, &Opened { state, ..sheet }).is_some());
    assert!(fault_of_sheet(&stable, &Opened { place: 1, ..sheet }).is_some());
}
