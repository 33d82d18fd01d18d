//! The watch over cut steps finds wrong ones, with no other calls beside them.

mod faults;
mod tables;
mod wrong;

use std::collections::BTreeSet;

use reference::compare::{compare_sheet, watch_sheet};
use reference::cut::laws::{fault, fault_beside_rounds, fault_beside_splits, CutStep};
use reference::gen::must::NO_ROADS;
use reference::gen::{ring, two_way};
use reference::rounds::rounds;
use reference::{card, Calls, Cut, End, Fast, WorkState};

use self::faults::{Fault, FAULTS};
use crate::opened;
use crate::other_cuts::OtherCuts;

const NUMBER: &str = "a cut step has another number than its tables";
const REFUSED: &str = "a refused cut step changes something";
const ENDED: &str = "a cut step changes something, but the end is none";
const NONE_CHANGES: &str = "a cut step gives none and changes more than the end";
const TOLD: &str = "a cut step tells other removals than the legs that went";
const HANDED_BACK: &str = "a cut step would be refused on what it hands back";
const PLACE: &str = "a cut step leaves another place, mark or end";
const DENIED: &str = "a cut step gives none, but a round drives all must-drive roads";
const LOST: &str = "a cut step loses a round that drives all must-drive roads";
const UNDRIVEN: &str = "a cut step adds a must-drive road that a round does not drive";
const GOES_ON: &str = "a cut step goes on, but no round crosses one of the cuts";
const BOTH: &str = "a cut step goes on, but one road must be driven and go";
const MUST: &str = "a cut step hands back other must-drive roads than its cuts say";
const ROADS: &str = "a cut step leaves other roads than its cuts say";
const NO_REASON: &str = "a cut step gives none, but no cut says so";
const CAME_BACK: &str = "a cut step brings a leg back";
const TAKEN_BACK: &str = "a cut step takes a must-drive road back";

impl Fault {
    fn calls(self) -> impl Calls {
        OtherCuts(move |state, must: &_| self.cut(state, must))
    }

    /// What the watch says of it, among others.
    fn reason(self) -> &'static str {
        match self {
            Fault::StrayBeforeTwoWay
            | Fault::OneWayTaken
            | Fault::TwoStationsTaken
            | Fault::OneWayMustTaken
            | Fault::StrayLeftOut
            | Fault::EndNoneUnchecked
            | Fault::BadStateLast => NUMBER,
            Fault::RefusedMustCleared | Fault::RefusedCounts => REFUSED,
            Fault::MustGrowsAtEndNone | Fault::RemovesAtEndNone => ENDED,
            Fault::TablesChangeAtNone | Fault::NoneMovesThePlace => NONE_CHANGES,
            Fault::RemovalsInRoads => TOLD,
            Fault::OneDirectionStruck => HANDED_BACK,
            Fault::PlaceKept | Fault::OnlyMustReopens => PLACE,
            Fault::MoreThanThreeMust | Fault::NoneWithoutRoads => DENIED,
            Fault::OthersOfMoreThanThree => LOST,
            Fault::ThreeRoadsForced => UNDRIVEN,
            Fault::NoRoadMissed
            | Fault::OneRoadForced
            | Fault::ThreeMustMissed
            | Fault::NoneForgotten => GOES_ON,
            Fault::BothForced | Fault::BothDropped => BOTH,
            Fault::OneOfTwoForced
            | Fault::MustNotGrown
            | Fault::CutsOfWhatIsLeft
            | Fault::SingleStationsOnly => MUST,
            Fault::RoadMissed | Fault::ThirdWithOneMust | Fault::NewMustCounts => ROADS,
            Fault::LegComesBack => CAME_BACK,
            Fault::MustOfThisCallOnly => TAKEN_BACK,
        }
    }
}

/// The reasons of the watch up to the expected one.
fn reasons(fault: Fault, seed: u64, sheets: u64) -> BTreeSet<&'static str> {
    let calls = fault.calls();
    let mut reasons = BTreeSet::new();
    for difference in (0..sheets).filter_map(|index| watch_sheet(&calls, seed, index).err()) {
        reasons.insert(difference.reason);
        if difference.reason == fault.reason() {
            break;
        }
    }
    reasons
}

#[test]
fn the_watch_finds_each_fault_of_cut_steps() {
    let mut otherwise = Vec::new();
    for fault in FAULTS {
        for seed in 1..=2 {
            let found = reasons(fault, seed, 200);
            if !found.contains(fault.reason()) {
                otherwise.push((fault, seed, found));
            }
        }
    }
    assert!(otherwise.is_empty(), "{otherwise:#?}");
}

/// Beside other calls they are differences.
#[test]
fn the_comparison_finds_each_fault_of_cut_steps() {
    for fault in FAULTS {
        let calls = fault.calls();
        let found = (0..60).find_map(|index| compare_sheet(&calls, 1, index).err());
        let reason = found.map(|difference| difference.reason);
        assert_eq!(reason, Some("the fast answer differs"), "{fault:?}");
    }
}

/// The last call told is the cut step, with what others answer to it.
#[test]
fn the_watch_tells_the_cut_step() {
    let calls = Fault::RemovalsInRoads.calls();
    let found = (0..60).find_map(|index| watch_sheet(&calls, 1, index).err());
    let text = found.expect("a difference").to_string();
    let answer = |who: &str| text.lines().find_map(|line| line.strip_prefix(who));
    let [tested, fast, plain] = ["  tested: ", "  fast: ", "  plain: "].map(answer);
    assert!(fast.is_some_and(|text| text.contains(" must-drive")));
    assert!(fast == plain && fast != tested);
}

/// A cut step by the fast calls with its answer changed.
fn changed(step: &CutStep, change: impl FnOnce(&mut Cut)) -> CutStep {
    let mut other = *step;
    change(&mut other.after);
    other
}

fn step(before: WorkState, given: &[(usize, usize)]) -> CutStep {
    let given = two_way(64, given).rows();
    let after = Fast.cut(before, &given);
    CutStep {
        before,
        given,
        after,
    }
}

/// Each break of an answer by itself, on a ring of five with a road across: each road of
/// the ring becomes must-drive.
#[test]
fn breaks_by_hand() {
    let mut roads = ring(5).legs();
    roads.push((1, 3));
    let before = WorkState {
        place: 3,
        mark: true,
        ..opened(&two_way(5, &roads))
    };
    let forced = step(before, &[]);
    let refused = step(before, &[(1, 4)]);
    let end = End::None;
    let ended = step(WorkState { end, ..before }, &[]);
    for sound in [&forced, &refused, &ended] {
        assert_eq!(fault(sound), None);
    }
    let broken = |step, change: fn(&mut Cut)| fault(&changed(step, change));
    assert_eq!(
        broken(&refused, |cut| cut.number = card::NOT_TWO_WAY),
        Some(NUMBER)
    );
    assert_eq!(broken(&refused, |cut| cut.removed = 1), Some(REFUSED));
    assert_eq!(broken(&refused, |cut| cut.must = NO_ROADS), Some(REFUSED));
    assert_eq!(broken(&refused, |cut| cut.state.place = 0), Some(REFUSED));
    assert_eq!(broken(&ended, |cut| cut.must[0] = 2), Some(ENDED));
    assert_eq!(
        broken(&forced, |cut| cut.state.end = End::None),
        Some(NONE_CHANGES)
    );
    assert_eq!(broken(&forced, |cut| cut.removed = 2), Some(TOLD));
    assert_eq!(broken(&forced, |cut| cut.must[0] ^= 2), Some(HANDED_BACK));
    assert_eq!(broken(&forced, |cut| cut.state.place = 0), Some(PLACE));
    assert_eq!(broken(&forced, |cut| cut.state.mark = false), Some(PLACE));
    assert_eq!(
        broken(&forced, |cut| cut.state.end = End::Stable),
        Some(PLACE)
    );
    assert_eq!(
        broken(&forced, |cut| cut.state.rows[0] |= 1 << 3),
        Some(CAME_BACK)
    );
    let given = step(before, &[(1, 2)]);
    assert_eq!(broken(&given, |cut| cut.must = NO_ROADS), Some(TAKEN_BACK));

    let none = changed(&forced, |cut| {
        (cut.state, cut.must) = (WorkState { end, ..before }, NO_ROADS);
    });
    assert_eq!(
        (fault(&none), fault_beside_splits(&none)),
        (None, Some(NO_REASON))
    );
    let all = rounds(&before.table());
    assert_eq!(fault_beside_rounds(&none, &all), Some(DENIED));
    assert_eq!(fault_beside_rounds(&none, &[]), None);
    let lost = changed(&forced, |cut| cut.state.rows[0] &= !2);
    assert_eq!(fault_beside_rounds(&lost, &all), Some(LOST));
    let undriven = changed(&forced, |cut| cut.must[0] |= 4);
    assert_eq!(fault_beside_rounds(&undriven, &all), Some(UNDRIVEN));
    assert_eq!(fault_beside_splits(&undriven), Some(MUST));
}
