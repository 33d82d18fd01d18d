//! The script of test vectors, section by section.

mod bad_states;
mod ceilings;
mod chains;
mod cuts;
mod finder;
mod islands;
mod lines;
mod lists;
mod neighbours;
mod openings;
mod passes;
mod previews;
mod runs;
mod stable;
mod sweeps;
mod turns;
mod valleys;
mod written;

use crate::gen::{Sheet, WIDE_NUMBERS};
use crate::script::Script;
use crate::state::{last_place, End, WorkState};
use crate::table::LegTable;

pub fn script() -> Script {
    let mut script = Script::default();
    // The blank state comes first, before any opening.
    bad_states::add(&mut script);
    openings::add(&mut script);
    lines::add(&mut script);
    sweeps::add(&mut script);
    chains::add(&mut script);
    passes::add(&mut script);
    islands::add(&mut script);
    runs::add(&mut script);
    lists::add(&mut script);
    neighbours::add(&mut script);
    written::add(&mut script);
    valleys::add(&mut script);
    ceilings::add(&mut script);
    turns::add(&mut script);
    stable::add(&mut script);
    finder::add(&mut script);
    cuts::add(&mut script);
    script
}

/// The section of valleys alone.
pub fn valleys() -> Script {
    let mut script = Script::default();
    valleys::add(&mut script);
    script
}

/// The section of ceilings alone.
pub fn ceilings() -> Script {
    let mut script = Script::default();
    ceilings::add(&mut script);
    script
}

/// The section of turns alone.
pub fn turns() -> Script {
    let mut script = Script::default();
    turns::add(&mut script);
    script
}

/// The section of stable states alone.
pub fn stable() -> Script {
    let mut script = Script::default();
    stable::add(&mut script);
    script
}

/// The section of searches for the first round alone.
pub fn finder() -> Script {
    let mut script = Script::default();
    finder::add(&mut script);
    script
}

/// The section of cut steps alone.
pub fn cuts() -> Script {
    let mut script = Script::default();
    cuts::add(&mut script);
    script
}

/// The section of previews alone.
pub fn previews() -> Script {
    let mut script = Script::default();
    previews::add(&mut script);
    script
}

fn open_table(script: &mut Script, limit: u64, table: &LegTable) {
    script.open(limit, &Sheet::of(table).bytes());
}

/// A table under every end, with place and mark at rest and elsewhere.
fn states_of(table: &LegTable) -> Vec<WorkState> {
    let opened = WorkState::opened(table, 64);
    let mut states = Vec::new();
    for end in [End::Open, End::Stable, End::None] {
        states.push(WorkState { end, ..opened });
        states.push(WorkState {
            end,
            place: last_place(opened.n),
            mark: true,
            ..opened
        });
    }
    states.push(WorkState { place: 1, ..opened });
    states
}
