//! The watch over previews finds wrong ones, with no other calls beside them.

mod faults;

use std::cell::Cell;
use std::collections::BTreeSet;

use reference::compare::{compare_sheet, watch_sheet};
use reference::preview::laws::{fault, fault_beside_first, fault_beside_rounds};
use reference::preview::laws::{fault_beside_step, fault_on_stable, Previewed};
use reference::preview::NO_LEGS;
use reference::rounds::rounds;
use reference::{card, open, paper, vectors, Calls, End, Fast, HandStep, Preview, WorkState};

use self::faults::{Fault, FAULTS};
use crate::other_previews::OtherPreviews;
use crate::scripts::answers;

const NUMBER: &str = "a preview has another number than its state and seed";
const STATE: &str = "a preview changes the state";
const REFUSED: &str = "a refused preview shows legs or another end";
const ENDED: &str = "a preview shows legs or another end, but the end is none";
const STANDING: &str = "a preview shows a leg that does not stand";
const END: &str = "a preview shows an end that does not follow from its legs";
const NUMBER_OF_STEP: &str = "a preview has another number than its step";
const LEGS: &str = "a preview shows other legs than its step removes";
const COUNT: &str = "a preview shows another number of legs than its step tells";
const END_OF_STEP: &str = "a preview shows another end than its step leaves";
const SECOND: &str = "a second preview differs from the first";
const DRIVEN: &str = "a preview shows a leg that a round drives";
const DENIED: &str = "a preview shows none, but there is a round";
const STABLE: &str = "a preview shows legs or another end on a stable state";

impl Fault {
    fn calls(self) -> impl Calls {
        let odd = Cell::new(false);
        OtherPreviews(move |state, step| self.preview(state, step, &odd))
    }

    /// What the watch says of it, among others.
    fn reason(self) -> &'static str {
        match self {
            Fault::SeedFirst
            | Fault::StraySeedTaken
            | Fault::SeedUncheckedAtNone
            | Fault::BadStateTaken => NUMBER,
            Fault::StepDone | Fault::PlaceCleared | Fault::EndHandedBack => STATE,
            Fault::RefusedTable | Fault::RefusedOpen | Fault::RefusedNone => REFUSED,
            Fault::EndedAsOpen | Fault::EndedShowsLegs | Fault::EndedShowsOpen => ENDED,
            Fault::OwnLeg | Fault::Transposed => STANDING,
            Fault::StableKept | Fault::StableOpened | Fault::StableWithoutLegs => END,
            Fault::LeftShown | Fault::OneLegMore => DRIVEN,
            Fault::NoneForNothing => DENIED,
            Fault::Reversed
            | Fault::NoneLegsDropped
            | Fault::NoneShowsAll
            | Fault::LastRowLost
            | Fault::NextSeed
            | Fault::LimitIgnored
            | Fault::SweepForChain
            | Fault::ChainForSweep
            | Fault::SweptBefore
            | Fault::WholeRun => LEGS,
            Fault::GivenEnd | Fault::NoneHidden => END_OF_STEP,
            Fault::EverySecondEmpty => SECOND,
            Fault::LegOnStable => STABLE,
        }
    }
}

/// The reasons of the watch up to the expected one.
fn reasons(fault: Fault, seed: u64, sheets: u64) -> BTreeSet<&'static str> {
    let calls = fault.calls();
    let mut reasons = BTreeSet::new();
    for difference in (0..sheets).filter_map(|index| watch_sheet(&calls, seed, index).err()) {
        reasons.insert(difference.reason);
        if difference.reason == fault.reason() {
            break;
        }
    }
    reasons
}

#[test]
fn the_watch_finds_each_fault_of_previews() {
    let mut otherwise = Vec::new();
    for fault in FAULTS {
        for seed in 1..=2 {
            let found = reasons(fault, seed, 200);
            if !found.contains(fault.reason()) {
                otherwise.push((fault, seed, found));
            }
        }
    }
    assert!(otherwise.is_empty(), "{otherwise:#?}");
}

/// Beside other calls they are differences.
#[test]
fn the_comparison_finds_each_fault_of_previews() {
    for fault in FAULTS {
        let calls = fault.calls();
        let found = (0..100).find_map(|index| compare_sheet(&calls, 1, index).err());
        let reason = found.map(|difference| difference.reason);
        assert_eq!(reason, Some("the fast answer differs"), "{fault:?}");
    }
}

#[test]
fn the_vectors_tell_each_fault_of_previews() {
    let script = vectors::previews();
    let sound = answers(&Fast, script.bytes());
    for fault in FAULTS {
        let told = answers(&fault.calls(), script.bytes()) != sound;
        assert!(told, "{fault:?}");
    }
}

/// The last call told is the preview, with what others answer to it, also where only the step
/// after it shows that it is wrong.
#[test]
fn the_watch_tells_the_preview() {
    for fault in [Fault::PlaceCleared, Fault::Reversed, Fault::NoneHidden] {
        let calls = fault.calls();
        let found = (0..60).find_map(|index| watch_sheet(&calls, 1, index).err());
        let text = found.expect("a difference").to_string();
        let answer = |who: &str| text.lines().find_map(|line| line.strip_prefix(who));
        let [tested, fast, plain] = ["  tested: ", "  fast: ", "  plain: "].map(answer);
        assert!(fast.is_some_and(|text| text.starts_with("0 end ")));
        assert!(fast == plain && fast != tested, "{text}");
    }
}

fn previewed(before: WorkState, step: HandStep) -> Previewed {
    Previewed {
        before,
        step,
        preview: Fast.preview(before, step),
    }
}

/// The same preview with its answer changed.
fn changed(previewed: &Previewed, change: impl FnOnce(&mut Preview)) -> Previewed {
    let mut other = *previewed;
    change(&mut other.preview);
    other
}

/// Each break of an answer by itself, on the nine legs: a sweep removes three.
#[test]
fn breaks_by_hand() {
    let opened = open(&paper::NINE_LEGS, 64).state;
    let end = End::None;
    let swept = previewed(opened, HandStep::Sweep);
    let stray = previewed(opened, HandStep::Pass(7));
    let bad = previewed(WorkState { place: 9, ..opened }, HandStep::Pass(7));
    let ended = previewed(WorkState { end, ..opened }, HandStep::Sweep);
    for sound in [&swept, &stray, &bad, &ended] {
        assert_eq!(fault(sound), None);
    }
    let broken = |previewed, change: fn(&mut Preview)| fault(&changed(previewed, change));
    let seed = |preview: &mut Preview| preview.number = card::STRAY_SEED;
    for sound in [&swept, &bad, &ended] {
        assert_eq!(broken(sound, seed), Some(NUMBER));
    }
    for sound in [&swept, &stray, &bad, &ended] {
        let marked = |preview: &mut Preview| preview.state.mark = true;
        assert_eq!(broken(sound, marked), Some(STATE));
        let struck = |preview: &mut Preview| preview.state.rows[0] = 2;
        assert_eq!(broken(sound, struck), Some(STATE));
    }
    for sound in [&stray, &bad] {
        assert_eq!(broken(sound, |preview| preview.legs[0] = 2), Some(REFUSED));
        assert_eq!(
            broken(sound, |preview| preview.end = End::None),
            Some(REFUSED)
        );
    }
    assert_eq!(broken(&ended, |preview| preview.legs[0] = 2), Some(ENDED));
    assert_eq!(
        broken(&ended, |preview| preview.end = End::Open),
        Some(ENDED)
    );
    assert_eq!(
        broken(&swept, |preview| preview.legs[0] |= 1 << 5),
        Some(STANDING)
    );
    assert_eq!(
        broken(&swept, |preview| preview.legs[9] = 1),
        Some(STANDING)
    );
    assert_eq!(
        broken(&swept, |preview| preview.end = End::Stable),
        Some(END)
    );
    assert_eq!(broken(&swept, |preview| preview.end = End::None), None);
    assert_eq!(broken(&swept, |preview| preview.legs = NO_LEGS), None);
}

/// Each break of an answer beside others.
#[test]
fn breaks_beside_others_by_hand() {
    let opened = open(&paper::NINE_LEGS, 64).state;
    let swept = previewed(opened, HandStep::Sweep);
    let step = Fast.sweep(opened);
    assert_eq!(fault_beside_step(&swept, &step), None);
    let beside = |change: fn(&mut Preview)| fault_beside_step(&changed(&swept, change), &step);
    let refused = |preview: &mut Preview| preview.number = card::BAD_WORK_STATE;
    assert_eq!(beside(refused), Some(NUMBER_OF_STEP));
    assert_eq!(beside(|preview| preview.legs[0] = 2), Some(LEGS));
    assert_eq!(beside(|preview| preview.end = End::None), Some(END_OF_STEP));
    let mut more = step;
    more.removed += 1;
    assert_eq!(fault_beside_step(&swept, &more), Some(COUNT));

    let other = changed(&swept, |preview| preview.legs[0] = 2);
    assert_eq!(fault_beside_first(&swept, &swept), None);
    assert_eq!(fault_beside_first(&other, &swept), Some(SECOND));

    let all = rounds(&opened.table());
    let driven = changed(&swept, |preview| preview.legs[0] |= 8);
    let none = changed(&swept, |preview| preview.end = End::None);
    assert_eq!(fault_beside_rounds(&swept, &all), None);
    assert_eq!(fault_beside_rounds(&driven, &all), Some(DRIVEN));
    assert_eq!(fault_beside_rounds(&none, &all), Some(DENIED));
    assert_eq!(fault_beside_rounds(&none, &[]), None);

    let stable = Fast.run(opened, u32::MAX).state;
    let idle = previewed(stable, HandStep::Pass(3));
    assert_eq!(fault_on_stable(&idle), None);
    let opens = changed(&idle, |preview| preview.end = End::Open);
    assert_eq!(fault_on_stable(&opens), Some(STABLE));
    let shows = changed(&idle, |preview| preview.legs[0] = 8);
    assert_eq!(fault_on_stable(&shows), Some(STABLE));
}
