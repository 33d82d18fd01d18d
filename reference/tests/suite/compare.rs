//! The comparison finds nothing where nothing is wrong, and finds what is.

use std::collections::BTreeSet;

use reference::compare::ceilings::CeilingCounts;
use reference::compare::cuts::CutCounts;
use reference::compare::finder::SearchCounts;
use reference::compare::previews::PreviewCounts;
use reference::compare::stable::StableCounts;
use reference::compare::turns::TurnCounts;
use reference::compare::{compare_sheet, Counts};
use reference::filled::fill;
use reference::gen::{any_table, Sheet, Xorshift};
use reference::graph::{inner, levels, unreached};
use reference::hand::{self, Handled};
use reference::list::Checked;
use reference::preview::{preview_by, HandStep, Preview};
use reference::run::Ran;
use reference::sheet::Opened;
use reference::state::{last_place, Rows};
use reference::written::written_sheet;
use reference::{card, open, program, Calls, Cut, End, Fast, Filled};
use reference::{LegTable, Sought, Telling, WorkState};

/// Compares calls on sheets, which must show no difference.
fn compared(tested: &dyn Calls, seed: u64, sheets: u64) -> Counts {
    let mut counts = Counts::default();
    for index in 0..sheets {
        match compare_sheet(tested, seed, index) {
            Ok(more) => counts.add(&more),
            Err(difference) => panic!("sheet {index}\n{difference}"),
        }
    }
    counts
}

#[test]
fn telling_calls_differ_nowhere() {
    let counts = compared(&Telling, 3, 1_000);
    assert_eq!(counts.missing(1_000), None);
}

#[test]
fn fast_calls_differ_nowhere() {
    let counts = compared(&Fast, 3, 1_000);
    assert!(counts.numbers.iter().all(|&count| count > 10));
    assert!(counts.plain > 5_000 && counts.watched > 100);
    assert!(counts.rounds_confirmed > 100 && counts.legs_removed > 1_000);
    assert!(counts.ended_stable > 100 && counts.ended_none > 80);
    let chains = &counts.chains;
    assert!(chains.struck > 100 && chains.none > 100 && chains.left > 100);
    let islands = &counts.islands;
    assert!(islands.no_level > 50 && islands.over_limit > 40 && islands.level > 20);
    let neighbours = &counts.neighbours;
    assert!(neighbours.changed > 10 && neighbours.by_outgoing > 100 && neighbours.by_first > 10);
    let written = &counts.written;
    assert!(written.round_trips > 1_500);
    assert!(written.no_field > 1_000 && written.fixed > 5_000);
    assert!(written.next_set > 10_000 && written.empty_set > 500);
    let valleys = &counts.valleys;
    assert!(valleys.struck > 20 && valleys.none > 15 && valleys.runs > 10);
    let ceilings = &counts.ceilings;
    assert!(ceilings.from_start.count > 800 && ceilings.from_mid_cycle.count > 800);
    assert!(ceilings.just > 800 && ceilings.program > 200);
    assert!(ceilings.from_start.nearest.ratio() > 0.35);
    assert_eq!(counts.missing(1_000), None);
    assert_eq!(counts.missing(2_000), Some("valleys"));
    for ceilings in without_one_count(&counts.ceilings) {
        let counts = Counts {
            ceilings,
            ..counts.clone()
        };
        assert_eq!(counts.missing(1_000), Some("ceilings"));
    }
    let turns = &counts.turns;
    assert!(turns.splits > 800 && turns.marked > 100 && turns.ended_before > 150);
    assert!(turns.with_zero > 500 && turns.largest > 100);
    assert!(turns.refused > 200 && turns.of_no_opening > 50);
    for turns in without_one_kind(&counts.turns) {
        let counts = Counts {
            turns,
            ..counts.clone()
        };
        assert_eq!(counts.missing(1_000), Some("turns"));
    }
    let cuts = &counts.cuts;
    assert!(cuts.no_road > 100 && cuts.one_road > 200 && cuts.three_must > 50);
    assert!(cuts.both > 10 && cuts.forced > 500 && cuts.dropped > 150);
    assert!(cuts.only_must > 400 && cuts.wide > 200 && cuts.in_class > 500);
    assert!(cuts.in_a_row > 20 && cuts.stable > 50 && cuts.stray > 200);
    let previews = &counts.previews;
    assert!(previews.sweeps > 150 && previews.chains > 250 && previews.passes > 250);
    assert!(previews.none_with_legs > 8 && previews.none_alone > 800);
    assert!(previews.nothing > 8_000 && previews.ended > 1_000 && previews.wide > 150);
    assert!(previews.bad_states > 1_500 && previews.stray_seeds > 1_500);
    assert!(previews.stable > 5_000 && previews.steps > 6_000 && previews.again > 1_500);
    let stable = &counts.stable;
    assert!(stable.states > 300 && stable.after_hand > 80 && stable.steps > 4_000);
    assert!(stable.stray > 1_200 && stable.anew > 900 && stable.sheets > 300);
    assert!(stable.made_up > 100);
    let unstable = Counts {
        stable: StableCounts::default(),
        ..counts.clone()
    };
    assert_eq!(unstable.missing(1_000), Some("stable states"));
    for searches in without_one_search(&counts.searches) {
        let counts = Counts {
            searches,
            ..counts.clone()
        };
        assert_eq!(counts.missing(1_000), Some("searches"));
    }
    for cuts in without_one_cut(&counts.cuts) {
        let counts = Counts {
            cuts,
            ..counts.clone()
        };
        assert_eq!(counts.missing(1_000), Some("cut steps"));
    }
    for previews in without_one_preview(&counts.previews) {
        let counts = Counts {
            previews,
            ..counts.clone()
        };
        assert_eq!(counts.missing(1_000), Some("previews"));
    }
}

fn without_one_count(ceilings: &CeilingCounts) -> [CeilingCounts; 4] {
    let mut without = [(); 4].map(|()| ceilings.clone());
    without[0].from_start.count = 0;
    without[1].from_mid_cycle.count = 0;
    without[2].just = 0;
    without[3].program = 0;
    without
}

fn without_one_kind(turns: &TurnCounts) -> [TurnCounts; 7] {
    let mut without = [(); 7].map(|()| turns.clone());
    without[0].splits = 0;
    without[1].marked = 0;
    without[2].ended_before = 0;
    without[3].with_zero = 0;
    without[4].largest = 0;
    without[5].refused = 0;
    without[6].of_no_opening = 0;
    without
}

fn without_one_search(searches: &SearchCounts) -> [SearchCounts; 13] {
    std::array::from_fn(|at| {
        let mut without = searches.clone();
        *without.each_mut()[at] = 0;
        without
    })
}

fn without_one_cut(cuts: &CutCounts) -> [CutCounts; 18] {
    std::array::from_fn(|at| {
        let mut without = cuts.clone();
        *without.each_mut()[at] = 0;
        without
    })
}

fn without_one_preview(previews: &PreviewCounts) -> [PreviewCounts; 13] {
    std::array::from_fn(|at| {
        let mut without = previews.clone();
        *without.each_mut()[at] = 0;
        without
    })
}

#[test]
fn a_count_that_is_0_is_told() {
    assert!(Counts::default().missing(1_000).is_some());
}

#[test]
fn the_same_sheet_gives_the_same_calls() {
    for index in 0..40 {
        let (first, second) = (
            compare_sheet(&Fast, 9, index),
            compare_sheet(&Fast, 9, index),
        );
        assert_eq!(first.ok(), second.ok());
    }
}

#[test]
fn mixed_sheets_give_their_table() {
    let mut rng = Xorshift::new(31);
    for _ in 0..500 {
        let n = rng.between(2, 64);
        let table = any_table(&mut rng, n);
        let opened = open(&Sheet::mixed(&mut rng, &table).bytes(), 64);
        assert_eq!((opened.number, opened.state.rows), (0, table.rows()));
    }
}

/// Faults that a comparison has to find.
#[derive(Clone, Copy, Debug)]
enum Fault {
    PlaceOfRefusal,
    RemovalCount,
    LimitIgnored,
    StopsEarly,
    MarkForgotten,
    CircuitsAsRounds,
    WritesBehindText,
    PlaceUnchecked,
    EndsAtTheStations,
    LoopsMissed,
    OneChainOnly,
    IslandsMissed,
    IslandsMissedInTheCycle,
    IslandsWithoutLevelMissed,
    IslandsStruck,
    PrintsWhatFits,
    RefusalAsAnswer,
    TwoStationsFixed,
    OwnBitWritten,
    SingleLegAsSet,
    MapBitsSwapped,
    PreviousSetsWritten,
    WritesBehindSheet,
    WritesWhatFits,
    RoomCheckedFirst,
    NoneNotWritten,
    Panics,
}

const FAULTS: [Fault; 27] = [
    Fault::PlaceOfRefusal,
    Fault::RemovalCount,
    Fault::LimitIgnored,
    Fault::StopsEarly,
    Fault::MarkForgotten,
    Fault::CircuitsAsRounds,
    Fault::WritesBehindText,
    Fault::PlaceUnchecked,
    Fault::EndsAtTheStations,
    Fault::LoopsMissed,
    Fault::OneChainOnly,
    Fault::IslandsMissed,
    Fault::IslandsMissedInTheCycle,
    Fault::IslandsWithoutLevelMissed,
    Fault::IslandsStruck,
    Fault::PrintsWhatFits,
    Fault::RefusalAsAnswer,
    Fault::TwoStationsFixed,
    Fault::OwnBitWritten,
    Fault::SingleLegAsSet,
    Fault::MapBitsSwapped,
    Fault::PreviousSetsWritten,
    Fault::WritesBehindSheet,
    Fault::WritesWhatFits,
    Fault::RoomCheckedFirst,
    Fault::NoneNotWritten,
    Fault::Panics,
];

/// The unreached stations of a pass by hand that gave none, and its inner levels.
struct Missed {
    stations: BTreeSet<usize>,
    inner: Vec<BTreeSet<usize>>,
}

impl Missed {
    fn by(before: &WorkState, seed: u64, passed: &Handled) -> Option<Missed> {
        if before.end == End::None || passed.state.end != End::None {
            return None;
        }
        let table = before.table();
        let levels = levels(&table, seed as usize);
        let stations = unreached(&table, &levels);
        (!stations.is_empty()).then(|| Missed {
            stations,
            inner: inner(&levels).to_vec(),
        })
    }

    /// There is no inner level, or each is over the limit.
    fn no_level_to_look_at(&self, limit: u64) -> bool {
        self.inner.iter().all(|level| level.len() as u64 > limit)
    }
}

/// A pass that asks no more than its levels.
fn pass_by_levels(state: WorkState, seed: u64) -> Handled {
    let passed = Fast.pass(state, seed);
    match Missed::by(&state, seed, &passed) {
        Some(missed) if missed.no_level_to_look_at(state.limit) => Handled { state, ..passed },
        _ => passed,
    }
}

/// One step of a run, with such a pass.
fn step_by_levels(state: WorkState) -> Ran {
    let ran = Fast.run(state, 1);
    let is_pass = ran.steps == 1 && state.place > 1;
    if !is_pass || pass_by_levels(state, state.place - 1).state != state {
        return ran;
    }
    let mut after = state;
    if state.place < last_place(state.n) {
        after.place += 1;
    } else {
        after.place = 0;
        after.mark = false;
        if !state.mark {
            after.end = End::Stable;
        }
    }
    Ran {
        state: after,
        ..ran
    }
}

fn run_by_levels(state: WorkState, budget: u32) -> Ran {
    let mut sum = Fast.run(state, 0);
    while sum.steps < budget {
        let ran = step_by_levels(sum.state);
        if ran.steps == 0 {
            break;
        }
        sum.state = ran.state;
        sum.steps += 1;
        sum.removed += ran.removed;
    }
    sum
}

/// Strikes the legs of the stations that a pass did not reach.
fn without_missed(mut passed: Handled, missed: &Missed) -> Handled {
    for &station in &missed.stations {
        let row = &mut passed.state.rows[station - 1];
        passed.removed += u64::from(row.count_ones());
        *row = 0;
    }
    passed
}

/// The sheet of what is left as others would write it, by a fault in its records.
fn sheet_by(fault: Fault, table: &LegTable) -> Option<Vec<u8>> {
    // The short sheet fixes the full rows of two stations.
    let mut sheet = match table.n() {
        2 => Sheet::of(table),
        _ => Sheet::short(table),
    };
    match fault {
        Fault::TwoStationsFixed => Some(Sheet::short(table).bytes()),
        Fault::SingleLegAsSet => Some(Sheet::of(table).bytes()),
        Fault::PreviousSetsWritten => Some(Sheet::of_by_previous(table).bytes()),
        Fault::OwnBitWritten => {
            for (at, record) in sheet.records.iter_mut().enumerate() {
                record.next = record.next.map(|set| set | 1 << at);
            }
            Some(sheet.bytes())
        }
        Fault::MapBitsSwapped => {
            let mut bytes = sheet.bytes();
            for at in 0..table.n() {
                let map = &mut bytes[sheet.map_at(at)];
                *map = [0, 4, 2, 6, 1, 5, 3, 7][usize::from(*map)];
            }
            Some(bytes)
        }
        _ => None,
    }
}

/// The fast calls with one fault.
struct Faulty(Fault);

impl Calls for Faulty {
    fn open(&self, sheet: &[u8], limit: u64) -> Opened {
        let mut opened = Fast.open(sheet, limit);
        if matches!(self.0, Fault::PlaceOfRefusal) && opened.number == 5 {
            opened.place += 1;
        }
        opened
    }

    fn sweep(&self, state: WorkState) -> Handled {
        let mut swept = Fast.sweep(state);
        if matches!(self.0, Fault::RemovalCount) {
            swept.removed = swept.removed.min(2);
        }
        assert!(!matches!(self.0, Fault::Panics) || swept.state.end == state.end);
        swept
    }

    fn chain(&self, state: WorkState) -> Handled {
        let mut chained = Fast.chain(state);
        match self.0 {
            // The last place of a cycle without a chain step.
            Fault::EndsAtTheStations if state.place == state.n + 1 => {
                hand::refused(card::BAD_WORK_STATE, state)
            }
            Fault::LoopsMissed => {
                chained.state.end = state.end;
                chained
            }
            Fault::OneChainOnly if chained.removed > 1 => {
                // A chain step takes at most one leg from a row.
                let back = (0..64).rfind(|&at| chained.state.rows[at] != state.rows[at]);
                let back = back.expect("a row that has changed");
                chained.state.rows[back] = state.rows[back];
                chained.removed -= 1;
                chained
            }
            _ => chained,
        }
    }

    fn pass(&self, state: WorkState, seed: u64) -> Handled {
        if matches!(self.0, Fault::LimitIgnored) && state.limit < 64 && !Fast.bad(&state) {
            let mut passed = Fast.pass(WorkState { limit: 64, ..state }, seed);
            passed.state.limit = state.limit;
            return passed;
        }
        let passed = Fast.pass(state, seed);
        let missed = Missed::by(&state, seed, &passed);
        match (self.0, missed) {
            (Fault::IslandsMissed, _) => pass_by_levels(state, seed),
            (Fault::IslandsWithoutLevelMissed, Some(missed)) if missed.inner.is_empty() => {
                Handled { state, ..passed }
            }
            (Fault::IslandsStruck, Some(missed)) => without_missed(passed, &missed),
            _ => passed,
        }
    }

    fn preview(&self, state: WorkState, step: HandStep) -> Preview {
        preview_by(self, state, step)
    }

    fn cut(&self, state: WorkState, must: &Rows) -> Cut {
        Fast.cut(state, must)
    }

    fn run(&self, state: WorkState, budget: u32) -> Ran {
        let budget = match self.0 {
            Fault::StopsEarly => budget.min(20),
            Fault::IslandsMissedInTheCycle => return run_by_levels(state, budget),
            _ => budget,
        };
        let mut ran = Fast.run(state, budget);
        if matches!(self.0, Fault::MarkForgotten) && ran.state.end == End::Open {
            ran.state.mark = false;
        }
        ran
    }

    fn list_check(&self, state: &WorkState, numbers: &[u8]) -> Checked {
        if matches!(self.0, Fault::PlaceUnchecked) {
            return Fast.list_check(&WorkState { place: 0, ..*state }, numbers);
        }
        let mut checked = Fast.list_check(state, numbers);
        if matches!(self.0, Fault::CircuitsAsRounds) && checked.number == 0 {
            let stands =
                |(row, &next): (&u64, &u8)| (1..=64).contains(&next) && row >> (next - 1) & 1 == 1;
            checked.yes = state.rows.iter().zip(numbers).all(stands);
        }
        checked
    }

    fn first_round(&self, state: &WorkState, budget: u32, list: &mut [u8]) -> Sought {
        Fast.first_round(state, budget, list)
    }

    fn report(&self, state: &WorkState, buffer: &mut [u8]) -> Filled {
        let reported = Fast.report(state, buffer);
        let end = reported.length as usize;
        if matches!(self.0, Fault::WritesBehindText) && end > 0 && end < buffer.len() {
            buffer[end] = 0;
        }
        reported
    }

    fn write(&self, state: &WorkState, buffer: &mut [u8]) -> Filled {
        if Fast.bad(state) {
            let none_fits = matches!(self.0, Fault::RoomCheckedFirst) && buffer.is_empty();
            let number = if none_fits {
                card::NO_ROOM
            } else {
                card::BAD_WORK_STATE
            };
            return Filled::refused(number);
        }
        let table = state.table();
        if let Some(sheet) = sheet_by(self.0, &table) {
            return fill(&sheet, buffer);
        }
        let sheet = written_sheet(&table);
        match self.0 {
            Fault::WritesBehindSheet if sheet.len() < buffer.len() => {
                buffer[sheet.len()] = 0;
            }
            Fault::WritesWhatFits if buffer.len() < sheet.len() => {
                return fill(&sheet[..buffer.len()], buffer);
            }
            Fault::NoneNotWritten if state.end == End::None => {
                return Filled::refused(card::BAD_WORK_STATE);
            }
            _ => {}
        }
        fill(&sheet, buffer)
    }

    fn print(&self, sheet: &[u8], buffer: &mut [u8]) -> Filled {
        let mut printed = Fast.print(sheet, buffer);
        if matches!(self.0, Fault::PrintsWhatFits) && printed.number == 10 {
            let text = program::output(&Fast, sheet);
            buffer.copy_from_slice(&text.as_bytes()[..buffer.len()]);
        }
        if matches!(self.0, Fault::RefusalAsAnswer) && printed.number == 0 {
            printed.number = Fast.open(sheet, 64).number;
        }
        printed
    }

    fn bad(&self, state: &WorkState) -> bool {
        Fast.bad(state)
    }
}

#[test]
fn each_fault_is_found() {
    for fault in FAULTS {
        let mut sheets = 0..600;
        let found = sheets.find_map(|index| compare_sheet(&Faulty(fault), 1, index).err());
        let Some(difference) = found else {
            panic!("{fault:?} is not found");
        };
        let text = difference.to_string();
        assert!(text.starts_with("sheet:"));
        for who in ["tested: ", "fast: ", "plain: "] {
            assert!(text.contains(who));
        }
    }
}
