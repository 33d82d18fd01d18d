//! The watch over turns finds runs that do not add up, with no other calls beside them.

use std::cell::Cell;

use reference::compare::{compare_sheet, watch_sheet};
use reference::gen::{any_table, split_budget, Xorshift};
use reference::run::Ran;
use reference::turns::{budget_of, fault, take};
use reference::{card, open, paper, vectors, Calls, End, Fast, WorkState};

use crate::other_runs::other_runs;
use crate::scripts::answers;

#[derive(Clone, Copy, Debug, PartialEq, Eq)]
enum Fault {
    /// Every run starts at place 0.
    StartsAnew,
    /// Every run starts with the mark clear.
    MarkCleared,
    /// Where the budget is used up, one step more is taken and counted.
    StepTooMany,
    /// The same, not counted.
    StepUncounted,
    /// The last step that the budget allows is not taken.
    StepTooFew,
    /// Where the budget is used up, the end is stable.
    StableAtBudget,
    /// A budget of 0 takes a step.
    ZeroTakesAStep,
    /// Removals are counted on from run to run.
    RemovalsGoOn,
    /// A state that was handed back is not checked again.
    CheckedOnce,
    /// A refused run sets the place to 0.
    PlaceRepaired,
}

const FAULTS: [Fault; 10] = [
    Fault::StartsAnew,
    Fault::MarkCleared,
    Fault::StepTooMany,
    Fault::StepUncounted,
    Fault::StepTooFew,
    Fault::StableAtBudget,
    Fault::ZeroTakesAStep,
    Fault::RemovalsGoOn,
    Fault::CheckedOnce,
    Fault::PlaceRepaired,
];

impl Fault {
    /// A run with this fault, and what the run before handed back.
    fn run(self, last: &Ran, state: WorkState, budget: u32) -> Ran {
        let sound = Fast.run(state, budget);
        if sound.number != card::TAKEN {
            return self.refused(last, sound);
        }
        if state.end != End::Open {
            return sound;
        }
        let used_up = sound.steps == budget && sound.state.end == End::Open;
        match self {
            Fault::ZeroTakesAStep => Fast.run(state, budget.max(1)),
            // The other faults leave a budget of 0 alone: that would be found at once.
            _ if budget == 0 => sound,
            Fault::StartsAnew => Fast.run(WorkState { place: 0, ..state }, budget),
            Fault::MarkCleared => {
                let mark = false;
                Fast.run(WorkState { mark, ..state }, budget)
            }
            Fault::StepTooMany if used_up => Fast.run(state, budget + 1),
            Fault::StepUncounted if used_up => Ran {
                steps: budget,
                ..Fast.run(state, budget + 1)
            },
            Fault::StepTooFew if used_up => Fast.run(state, budget - 1),
            Fault::StableAtBudget if used_up => {
                let mut ran = sound;
                ran.state.end = End::Stable;
                ran
            }
            Fault::RemovalsGoOn => Ran {
                removed: last.removed + sound.removed,
                ..sound
            },
            _ => sound,
        }
    }

    fn refused(self, last: &Ran, mut sound: Ran) -> Ran {
        match self {
            Fault::CheckedOnce if last.state == sound.state => sound.number = card::TAKEN,
            Fault::PlaceRepaired => sound.state.place = 0,
            _ => {}
        }
        sound
    }

    /// The fast calls with runs of this fault.
    fn calls(self) -> impl Calls {
        let last = Cell::new(Fast.run(WorkState::BLANK, 0));
        other_runs(move |state, budget| {
            let ran = self.run(&last.get(), state, budget);
            last.set(ran);
            ran
        })
    }
}

/// Why the watches refuse an answer, with no other calls beside them. What is said of
/// stable states is left out.
fn watched(calls: &dyn Calls, seed: u64, sheets: u64) -> Option<&'static str> {
    let found = (0..sheets).filter_map(|index| watch_sheet(calls, seed, index).err());
    let mut reasons = found.map(|difference| difference.reason);
    reasons.find(|reason| !reason.contains("stable"))
}

#[test]
fn the_watch_finds_each_fault_of_turns() {
    for fault in FAULTS {
        for seed in 1..=3 {
            let reason = watched(&fault.calls(), seed, 60);
            let reason = reason.unwrap_or_else(|| panic!("{fault:?} is not found"));
            let turns = reason.contains("turns");
            assert!(turns, "{fault:?} is found otherwise: {reason}");
        }
    }
}

/// Each kind of difference between turns and one run is found in some fault.
#[test]
fn the_watch_tells_what_does_not_add_up() {
    let expected = [
        (Fault::CheckedOnce, "number"),
        (Fault::ZeroTakesAStep, "changes"),
        (Fault::PlaceRepaired, "changes"),
        (Fault::StepTooFew, "state"),
        (Fault::RemovalsGoOn, "removals"),
    ];
    for (fault, word) in expected {
        let reason = watched(&fault.calls(), 1, 60);
        assert!(
            reason.is_some_and(|reason| reason.contains(word)),
            "{fault:?}: {reason:?}"
        );
    }
}

/// The last call told is the one run, with what others answer to it.
#[test]
fn the_watch_tells_the_one_run() {
    let calls = Fault::StepUncounted.calls();
    let found = (0..60).find_map(|index| watch_sheet(&calls, 1, index).err());
    let text = found.expect("a difference").to_string();
    let answer = |who: &str| text.lines().find_map(|line| line.strip_prefix(who));
    let (fast, plain) = (answer("  fast: "), answer("  plain: "));
    assert!(fast.is_some() && fast == plain && !text.contains("steps 0"));
}

/// Beside other calls they are differences.
#[test]
fn the_comparison_finds_each_fault_of_turns() {
    for fault in FAULTS {
        let calls = fault.calls();
        let found = (0..60).find_map(|index| compare_sheet(&calls, 1, index).err());
        let Some(difference) = found else {
            panic!("{fault:?} is not found");
        };
        assert_eq!(difference.reason, "the fast answer differs");
    }
}

#[test]
fn the_vectors_tell_each_fault_of_turns() {
    let script = vectors::turns();
    let sound = answers(&Fast, script.bytes());
    for fault in FAULTS {
        let told = answers(&fault.calls(), script.bytes()) != sound;
        assert!(told, "{fault:?}");
    }
}

/// Steps counted on from run to run: their ceiling, too, may tell.
#[test]
fn steps_that_go_on_are_found() {
    let counted = Cell::new(0);
    let calls = other_runs(move |state, budget| {
        let mut ran = Fast.run(state, budget);
        counted.set(counted.get() + ran.steps);
        ran.steps = counted.get();
        ran
    });
    let reason = watched(&calls, 1, 60).expect("a difference");
    assert!(
        reason.contains("steps") || reason.contains("turns"),
        "{reason}"
    );
    let state = open(&paper::NINE_LEGS, 64).state;
    let turns = take(&calls, state, &[7, 9]);
    assert!(fault(&turns, &calls.run(state, 16)).is_some());
}

/// Runs that give their budget out as their steps.
fn steps_of_the_budget(state: WorkState, budget: u32) -> Ran {
    let mut ran = Fast.run(state, budget);
    if ran.number == card::TAKEN {
        ran.steps = budget;
    }
    ran
}

/// These add up, as a + b = a + b, so that only other calls tell. (Their ceiling tells
/// where the budget is above it.)
#[test]
fn steps_of_the_budget_add_up_and_differ() {
    let calls = other_runs(steps_of_the_budget);
    let mut rng = Xorshift::new(75);
    for _ in 0..500 {
        let n = rng.between(2, 24);
        let state = WorkState::opened(&any_table(&mut rng, n), 64);
        let budgets = split_budget(&mut rng, &state);
        let budget = budget_of(&budgets).expect("a budget");
        let found = fault(&take(&calls, state, &budgets), &calls.run(state, budget));
        assert_eq!(found, None);
    }
    let reasons = (0..60).filter_map(|index| watch_sheet(&calls, 1, index).err());
    let mut reasons = reasons.map(|difference| difference.reason);
    assert!(reasons.all(|reason| !reason.contains("turns")));
    let found = (0..60).find_map(|index| compare_sheet(&calls, 1, index).err());
    let reason = found.map(|difference| difference.reason);
    assert_eq!(reason, Some("the fast answer differs"));
}

/// Each break by itself.
#[test]
fn breaks_by_hand() {
    let state = open(&paper::NINE_LEGS, 64).state;
    let one = Fast.run(state, 16);
    let sound = take(&Fast, state, &[7, 0, 9]);
    assert_eq!(fault(&sound, &one), None);

    let broken = |at: usize, change: fn(&mut Ran)| {
        let mut turns = sound.clone();
        change(&mut turns[at].ran);
        fault(&turns, &one)
    };
    for at in 0..3 {
        assert!(broken(at, |ran| ran.number = 7).is_some());
        assert!(broken(at, |ran| ran.steps += 1).is_some());
        assert!(broken(at, |ran| ran.removed += 1).is_some());
    }
    assert!(broken(1, |ran| ran.state.mark ^= true).is_some());
    assert!(broken(2, |ran| ran.state.place += 1).is_some());

    let refused = Ran { number: 7, ..one };
    let mut turns = sound.clone();
    turns.iter_mut().for_each(|turn| turn.ran.number = 7);
    assert!(fault(&turns, &refused).is_some());
}
