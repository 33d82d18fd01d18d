//! The watch over ceilings finds runs that never end, with no other calls beside them.

use std::cell::Cell;
use std::io::{self, Write};

use reference::ceiling::ceiling;
use reference::compare::{ceilings, compare_sheet, watch_sheet};
use reference::finder::first_round_by;
use reference::gen::{all_tables, Xorshift};
use reference::hand::Handled;
use reference::list::Checked;
use reference::preview::{preview_by, HandStep, Preview};
use reference::run::Ran;
use reference::script::play;
use reference::sheet::Opened;
use reference::state::{last_place, Rows};
use reference::{program, vectors, Calls, Cut, End, Fast, Filled};
use reference::{LegTable, Plain, Sought, WorkState};

use crate::opened;
use crate::scripts::answers;

#[derive(Clone, Copy, Debug, PartialEq, Eq)]
enum Fault {
    /// The mark is not cleared where a cycle ends.
    MarkKept,
    NeverStable,
    /// A cycle that has struck legs gives them back where it ends.
    LegsComeBack,
    /// Steps are counted on from run to run.
    CountGoesOn,
    /// None does not end a run.
    NoneGoesOn,
}

const FAULTS: [Fault; 5] = [
    Fault::MarkKept,
    Fault::NeverStable,
    Fault::LegsComeBack,
    Fault::CountGoesOn,
    Fault::NoneGoesOn,
];

/// Where a fault is.
#[derive(Clone, Copy, Debug, PartialEq, Eq)]
enum Part {
    Runs,
    Prints,
}

/// The fast calls with a fault in one part.
struct Faulty {
    fault: Fault,
    part: Part,
    counted: Cell<u32>,
}

impl Faulty {
    fn new(fault: Fault, part: Part) -> Faulty {
        Faulty {
            fault,
            part,
            counted: Cell::new(0),
        }
    }

    fn step(&self, state: WorkState, first: &WorkState) -> Ran {
        let mut ran = Fast.run(state, 1);
        let after = &mut ran.state;
        if after.end == End::None {
            if self.fault == Fault::NoneGoesOn {
                after.end = End::Open;
            }
        } else if state.place == last_place(state.n) {
            let marked = state.mark || ran.removed > 0;
            match self.fault {
                Fault::MarkKept => after.mark = marked,
                Fault::NeverStable => after.end = End::Open,
                Fault::LegsComeBack => after.rows = first.rows,
                _ => {}
            }
        }
        ran
    }

    /// It gives up above the ceiling: it would not end before the largest budget.
    fn faulty_run(&self, state: WorkState, budget: u32) -> Ran {
        let mut sum = Fast.run(state, 0);
        if Fast.bad(&state) {
            return sum;
        }
        while sum.state.end == End::Open && sum.steps < budget.min(ceiling(&state) + 1) {
            let ran = self.step(sum.state, &state);
            sum.state = ran.state;
            sum.steps += 1;
        }
        if self.fault == Fault::CountGoesOn {
            self.counted.set(self.counted.get() + sum.steps);
            sum.steps = self.counted.get();
        }
        sum.removed = state.legs() - sum.state.legs();
        sum
    }
}

impl Calls for Faulty {
    fn open(&self, sheet: &[u8], limit: u64) -> Opened {
        Fast.open(sheet, limit)
    }

    fn sweep(&self, state: WorkState) -> Handled {
        Fast.sweep(state)
    }

    fn chain(&self, state: WorkState) -> Handled {
        Fast.chain(state)
    }

    fn pass(&self, state: WorkState, seed: u64) -> Handled {
        Fast.pass(state, seed)
    }

    fn preview(&self, state: WorkState, step: HandStep) -> Preview {
        preview_by(self, state, step)
    }

    fn cut(&self, state: WorkState, must: &Rows) -> Cut {
        Fast.cut(state, must)
    }

    fn run(&self, state: WorkState, budget: u32) -> Ran {
        match self.part {
            Part::Runs => self.faulty_run(state, budget),
            Part::Prints => Fast.run(state, budget),
        }
    }

    fn list_check(&self, state: &WorkState, numbers: &[u8]) -> Checked {
        Fast.list_check(state, numbers)
    }

    fn first_round(&self, state: &WorkState, budget: u32, list: &mut [u8]) -> Sought {
        first_round_by(self, state, budget, list)
    }

    fn report(&self, state: &WorkState, buffer: &mut [u8]) -> Filled {
        Fast.report(state, buffer)
    }

    fn write(&self, state: &WorkState, buffer: &mut [u8]) -> Filled {
        Fast.write(state, buffer)
    }

    fn print(&self, sheet: &[u8], buffer: &mut [u8]) -> Filled {
        match self.part {
            Part::Runs => Fast.print(sheet, buffer),
            Part::Prints => program::print(&Faulty::new(self.fault, Part::Runs), sheet, buffer),
        }
    }

    fn bad(&self, state: &WorkState) -> bool {
        Fast.bad(state)
    }
}

/// Why the watches refuse an answer, with no other calls beside them. Steps that are
/// counted on do not add up either, so what is said of turns is left out, and of stable
/// states as well.
fn watched(faulty: &Faulty, seed: u64, sheets: u64) -> Option<&'static str> {
    let found = (0..sheets).filter_map(|index| watch_sheet(faulty, seed, index).err());
    let mut reasons = found.map(|difference| difference.reason);
    reasons.find(|reason| !reason.contains("turns") && !reason.contains("stable"))
}

#[test]
fn the_watch_finds_each_fault_of_runs() {
    for fault in FAULTS {
        for seed in 1..=3 {
            let reason = watched(&Faulty::new(fault, Part::Runs), seed, 60);
            let reason = reason.unwrap_or_else(|| panic!("{fault:?} is not found"));
            let ceiling = reason.contains("ceiling");
            assert!(ceiling, "{fault:?} is found otherwise: {reason}");
        }
    }
}

#[test]
fn the_watch_finds_a_text_that_says_open() {
    for fault in [Fault::MarkKept, Fault::NeverStable, Fault::LegsComeBack] {
        let reason = watched(&Faulty::new(fault, Part::Prints), 1, 200);
        assert_eq!(reason, Some("the program's text says open"), "{fault:?}");
    }
}

/// Beside other calls they are differences.
#[test]
fn the_comparison_finds_each_fault_of_runs() {
    for fault in FAULTS {
        let faulty = Faulty::new(fault, Part::Runs);
        let found = (0..60).find_map(|index| compare_sheet(&faulty, 1, index).err());
        let Some(difference) = found else {
            panic!("{fault:?} is not found");
        };
        assert_eq!(difference.reason, "the fast answer differs");
    }
}

/// The watch alone refuses no sound answer.
#[test]
fn the_watch_finds_nothing_in_sound_calls() {
    for index in 0..300 {
        let alone = watch_sheet(&Fast, 1, index).unwrap_or_else(|found| panic!("{found}"));
        assert_eq!(Some(alone), compare_sheet(&Fast, 1, index).ok());
    }
}

/// Fails at the first byte that is not the expected one.
struct Expecting<'a> {
    rest: &'a [u8],
}

impl Write for Expecting<'_> {
    fn write(&mut self, bytes: &[u8]) -> io::Result<usize> {
        let rest = self.rest.strip_prefix(bytes);
        self.rest = rest.ok_or(io::ErrorKind::InvalidData)?;
        Ok(bytes.len())
    }

    fn flush(&mut self) -> io::Result<()> {
        Ok(())
    }
}

#[test]
fn the_vectors_tell_each_fault_of_runs() {
    let script = vectors::ceilings();
    let sound = answers(&Fast, script.bytes());
    let told = |calls: &Faulty| {
        let mut out = Expecting { rest: &sound };
        play(calls, script.bytes(), &mut out).is_err()
    };
    for fault in FAULTS {
        assert!(told(&Faulty::new(fault, Part::Runs)), "{fault:?}");
    }
    assert!(!told(&Faulty::new(Fault::MarkKept, Part::Prints)));
}

/// Each break by itself: one step too many, and open with just the ceiling.
#[test]
fn breaks_by_hand() {
    let state = opened(&LegTable::full(3));
    let sound = Plain.run(state, 35);
    assert_eq!(
        (ceiling(&state), ceilings::fault(&state, 35, &sound)),
        (35, None)
    );
    let long = |steps| Ran { steps, ..sound };
    assert_eq!(ceilings::fault(&state, 300_000, &long(35)), None);
    assert!(ceilings::fault(&state, 300_000, &long(36)).is_some());

    let mut open = long(35);
    open.state.end = End::Open;
    assert!(ceilings::fault(&state, 35, &open).is_some());
    let cut = Ran { steps: 34, ..open };
    assert_eq!(ceilings::fault(&state, 34, &cut), None);
}

/// A missing stable breaks the ceiling wherever a run comes to it, and a mark that is
/// kept does so where it has struck legs before.
#[test]
fn faults_break_the_ceilings_of_small_tables() {
    let mut rng = Xorshift::new(64);
    let tables: Vec<_> = all_tables(4).filter(|_| rng.percent(20)).collect();
    for table in tables {
        let state = opened(&table);
        let sound = Fast.run(state, u32::MAX);
        let stable = sound.state.end == End::Stable;
        for (fault, told) in [
            (Fault::MarkKept, stable && sound.removed > 0),
            (Fault::NeverStable, stable),
        ] {
            let ran = Faulty::new(fault, Part::Runs).run(state, ceiling(&state));
            let found = ceilings::fault(&state, ceiling(&state), &ran).is_some();
            assert_eq!(found, told, "{fault:?} on {state}");
        }
    }
}
