//! The watch over searches finds wrong ones, with no other calls beside them.

mod descent;

use std::collections::BTreeSet;

use reference::compare::{compare_sheet, watch_sheet};
use reference::finder::laws::fault_beside_same_rounds;
use reference::finder::laws::{fault, fault_beside_budget, fault_beside_moved, Search};
use reference::finder::laws::{fault_beside_own_runs, fault_beside_rounds};
use reference::finder::{Outcome, Sought};
use reference::rounds::rounds;
use reference::{card, paper, vectors, Calls, Fast, WorkState};

use self::descent::{Fault, FAULTS};
use crate::opened;
use crate::other_searches::OtherSearches;
use crate::scripts::answers;

const NUMBER: &str = "a search has another number or outcome than its state and list";
const WRITES: &str = "a search without a round writes to the list";
const REFUSED: &str = "a refused search counts nodes";
const COUNT: &str = "a search counts more nodes than its budget, or none";
const USED_UP: &str = "a search says used up with another count than its budget";
const LIST: &str = "a search finds a list that is no round of its table";
const EARLY: &str = "a search finds a round before it has decided every station";
const MISSED: &str = "a search finds no round, but its table has one";
const LATER: &str = "a search finds a list, but a round comes before it";
const BUDGET: &str = "a search with another budget has another outcome or count";
const MOVED: &str = "a search uses the given place, mark or end";
const ROUNDS: &str = "a search finds otherwise on a table with the same rounds";
const OWN_RUNS: &str = "a search differs from one by the runs of the same calls";

impl Fault {
    /// What is said of the answers with this fault. Where all stations are decided, the run
    /// of the node before has left every row with one leg: another run changes nothing.
    fn reason(self) -> Option<&'static str> {
        let reason = match self {
            Fault::LastNotRun => return None,
            Fault::ChildrenFalling | Fault::HighestFirst => LATER,
            Fault::FirstChildOnly => MISSED,
            Fault::WrittenOnTheWay => WRITES,
            Fault::ListNotWritten | Fault::PreviousWritten | Fault::CountedFromZero => LIST,
            Fault::CountedAtExit | Fault::OneNodeMore | Fault::ZeroEntersOne => COUNT,
            Fault::UsedUpAtTheEnd | Fault::NoRoundAtBudget => BUDGET,
            Fault::UsedUpTooEarly => USED_UP,
            Fault::EndUsed | Fault::PlaceAndMarkUsed => MOVED,
            Fault::SingleLegsSkipped => EARLY,
            Fault::LastChildLeftOut
            | Fault::RootNotCounted
            | Fault::DecidedTwice
            | Fault::OnlyRootRun
            | Fault::RootNotRun
            | Fault::OneCycleRun
            | Fault::LargestLimit
            | Fault::SmallestLimit
            | Fault::TableBeforeRun => OWN_RUNS,
            Fault::LengthUnchecked | Fault::LengthCheckedFirst => NUMBER,
            Fault::RefusalCounted => REFUSED,
        };
        Some(reason)
    }

    fn calls(self) -> impl Calls {
        OtherSearches(move |state: &WorkState, budget, list: &mut [u8]| {
            self.first_round(state, budget, list)
        })
    }
}

/// Why the watches refuse answers, with no other calls beside them.
fn reasons(calls: &dyn Calls, seed: u64, sheets: u64) -> BTreeSet<&'static str> {
    let found = (0..sheets).filter_map(|index| watch_sheet(calls, seed, index).err());
    found.map(|difference| difference.reason).collect()
}

#[test]
fn the_watch_finds_each_fault_of_searches() {
    let mut otherwise = Vec::new();
    for fault in FAULTS {
        for seed in 1..=3 {
            let found = reasons(&fault.calls(), seed, 60);
            let expected = match fault.reason() {
                Some(reason) => found.contains(reason),
                None => found.is_empty(),
            };
            if !expected {
                otherwise.push((fault, seed, found));
            }
        }
    }
    assert!(otherwise.is_empty(), "{otherwise:#?}");
}

/// Beside other calls they are differences.
#[test]
fn the_comparison_finds_each_fault_of_searches() {
    for fault in FAULTS {
        let calls = fault.calls();
        let found = (0..60).find_map(|index| compare_sheet(&calls, 1, index).err());
        let reason = found.map(|difference| difference.reason);
        let expected = fault.reason().map(|_| "the fast answer differs");
        assert_eq!(reason, expected, "{fault:?}");
    }
}

/// With a fault a search may have many more nodes than any of the vectors.
#[test]
fn the_vectors_tell_each_fault_of_searches() {
    let script = vectors::finder();
    let sound = answers(&Fast, script.bytes());
    for fault in FAULTS {
        let calls = OtherSearches(move |state: &WorkState, budget: u32, list: &mut [u8]| {
            fault.first_round(state, budget.min(1_000), list)
        });
        let told = answers(&calls, script.bytes()) != sound;
        assert_eq!(told, fault.reason().is_some(), "{fault:?}");
    }
}

/// The last call told is the search, with what others answer to it.
#[test]
fn the_watch_tells_the_search() {
    let calls = Fault::FirstChildOnly.calls();
    let found = (0..60).find_map(|index| watch_sheet(&calls, 1, index).err());
    let text = found.expect("a difference").to_string();
    let answer = |who: &str| text.lines().find_map(|line| line.strip_prefix(who));
    let [tested, fast, plain] = ["  tested: ", "  fast: ", "  plain: "].map(answer);
    assert!(tested.is_some_and(|text| text.starts_with("0 no round nodes")));
    assert!(fast.is_some_and(|text| text.starts_with("0 found nodes")));
    assert_eq!(fast, plain);
}

/// A search by the fast calls, into a list of this length.
fn search(state: WorkState, budget: u32, length: usize) -> Search {
    let lent = vec![200; length];
    let mut left = lent.clone();
    let sought = Fast.first_round(&state, budget, &mut left);
    Search {
        state,
        budget,
        lent,
        left,
        sought,
    }
}

/// The same search with its answer changed.
fn changed(search: &Search, change: fn(&mut Sought, &mut Vec<u8>)) -> Search {
    let mut other = search.clone();
    change(&mut other.sought, &mut other.left);
    other
}

/// Each break of an answer by itself.
#[test]
fn breaks_by_hand() {
    let state = opened(&paper::catalogue());
    let found = search(state, 5, 4);
    let used_up = search(state, 4, 4);
    let refused = search(state, 5, 3);
    let bad = search(WorkState { limit: 0, ..state }, 5, 3);
    for sound in [&found, &used_up, &refused, &bad] {
        assert_eq!(fault(sound), None);
    }
    let numbers = [&refused, &bad].map(|search| search.sought.number);
    assert_eq!(numbers, [card::WRONG_LIST_LENGTH, card::BAD_WORK_STATE]);

    let broken = |search, change| fault(&changed(search, change));
    assert_eq!(broken(&bad, |sought, _| sought.number = 9), Some(NUMBER));
    assert_eq!(
        broken(&refused, |sought, _| sought.number = 7),
        Some(NUMBER)
    );
    let used = |sought: &mut Sought, _: &mut Vec<u8>| sought.outcome = Outcome::UsedUp;
    assert_eq!(broken(&refused, used), Some(NUMBER));
    let refuses = |sought: &mut Sought, _: &mut Vec<u8>| sought.outcome = Outcome::Refused;
    assert_eq!(broken(&found, refuses), Some(NUMBER));
    assert_eq!(broken(&refused, |_, list| list[0] = 1), Some(WRITES));
    assert_eq!(broken(&used_up, |_, list| list[3] = 1), Some(WRITES));
    assert_eq!(
        broken(&refused, |sought, _| sought.nodes = 1),
        Some(REFUSED)
    );
    assert_eq!(broken(&found, |sought, _| sought.nodes = 6), Some(COUNT));
    assert_eq!(broken(&found, |sought, _| sought.nodes = 0), Some(COUNT));
    assert_eq!(
        broken(&used_up, |sought, _| sought.nodes = 3),
        Some(USED_UP)
    );
    assert_eq!(broken(&found, |_, list| list.swap(0, 1)), Some(LIST));
    assert_eq!(broken(&found, |sought, _| sought.nodes = 4), Some(EARLY));
}

/// Each break of an answer beside another one.
#[test]
fn breaks_beside_others_by_hand() {
    let state = opened(&paper::catalogue());
    let (found, used_up) = (search(state, 9, 4), search(state, 4, 4));
    let later = changed(&found, |_, list| list.copy_from_slice(&[4, 1, 2, 3]));
    let none = changed(&found, |sought, _| sought.outcome = Outcome::NoRound);
    let fewer = changed(&found, |sought, _| sought.nodes = 4);

    let rounds = rounds(&state.table());
    assert_eq!(fault_beside_rounds(&found, &rounds), None);
    assert_eq!(fault_beside_rounds(&none, &rounds), Some(MISSED));
    assert_eq!(fault_beside_rounds(&none, &[]), None);
    assert_eq!(fault_beside_rounds(&later, &rounds), Some(LATER));

    assert_eq!(fault_beside_budget(&used_up, &found), None);
    assert_eq!(fault_beside_budget(&found, &used_up), None);
    assert_eq!(fault_beside_budget(&fewer, &found), Some(BUDGET));
    let at_end = changed(&found, |sought, _| sought.outcome = Outcome::UsedUp);
    assert_eq!(fault_beside_budget(&at_end, &found), Some(BUDGET));
    assert!(fault_beside_budget(&later, &found).is_some_and(|reason| reason.contains("list")));

    assert_eq!(fault_beside_moved(&found, &found), None);
    assert_eq!(fault_beside_moved(&fewer, &found), Some(MOVED));
    assert_eq!(fault_beside_moved(&later, &found), Some(MOVED));

    assert_eq!(fault_beside_same_rounds(&fewer, &found), None);
    assert_eq!(fault_beside_same_rounds(&used_up, &found), None);
    assert_eq!(fault_beside_same_rounds(&none, &found), Some(ROUNDS));
    assert_eq!(fault_beside_same_rounds(&later, &found), Some(ROUNDS));

    assert_eq!(fault_beside_own_runs(&found, &Fast), None);
    assert_eq!(fault_beside_own_runs(&fewer, &Fast), Some(OWN_RUNS));
}
