//! States that are searched, drawn so that their searches differ.

use crate::calls::{Calls, Fast};
use crate::fast;
use crate::finder::{Outcome, Sought};
use crate::gen::{any_table, plant_round, Family, Xorshift};
use crate::program::LIMIT;
use crate::stable::opened_anew;
use crate::state::{End, WorkState, SMALLEST_LIMIT};
use crate::table::LegTable;

/// Enough for every search that is drawn.
const MOST_NODES: u32 = 250;

/// A state, its search and what it found.
pub struct Drawn {
    state: WorkState,
    sought: Sought,
    list: Vec<u8>,
}

impl Drawn {
    fn new(state: WorkState) -> Drawn {
        let mut list = vec![0; state.n as usize];
        let sought = Fast.first_round(&state, MOST_NODES, &mut list);
        Drawn {
            state,
            sought,
            list,
        }
    }

    fn is(&self, outcome: Outcome) -> bool {
        self.sought.outcome == outcome
    }
}

/// The whole search. That over plain sets takes long.
pub fn sought(state: &WorkState) -> Sought {
    let drawn = Drawn::new(*state);
    assert!(!drawn.is(Outcome::UsedUp));
    drawn.sought
}

/// A table, perhaps with a round more, at any place with any mark, end and limit.
fn state_of(rng: &mut Xorshift, mut table: LegTable) -> WorkState {
    if rng.percent(50) {
        plant_round(rng, &mut table);
    }
    let limit = rng.pick(&[1, 2, LIMIT]);
    WorkState {
        place: rng.below(table.n() + 2) as u64,
        mark: rng.percent(50),
        end: rng.pick(&[End::Open, End::Stable, End::None]),
        ..WorkState::opened(&table, limit)
    }
}

/// The fewest nodes, the most to a round and the most to none, where there are any.
pub fn few_and_many(rng: &mut Xorshift, family: Family) -> Vec<WorkState> {
    let draw = |_| {
        let n = rng.between(5, 9);
        let table = family.table(rng, n);
        Drawn::new(state_of(rng, table))
    };
    let all: Vec<Drawn> = (0..80).map(draw).collect();
    let few = all.iter().min_by_key(|drawn| drawn.sought.nodes);
    let most = |outcome: Outcome| {
        let fits = all.iter().filter(move |drawn| drawn.is(outcome));
        fits.max_by_key(|drawn| drawn.sought.nodes)
    };
    let chosen = [few, most(Outcome::Found), most(Outcome::NoRound)];
    chosen
        .into_iter()
        .flatten()
        .map(|drawn| drawn.state)
        .collect()
}

pub type Fits = fn(&Drawn) -> bool;

/// A state of any family.
pub fn drawn(rng: &mut Xorshift, n: usize, fits: Fits) -> WorkState {
    loop {
        let table = any_table(rng, n);
        let drawn = Drawn::new(state_of(rng, table));
        if fits(&drawn) {
            return drawn.state;
        }
    }
}

/// The lowest limit leaves the most nodes.
pub fn long_search(rng: &mut Xorshift, n: usize, outcome: Outcome) -> WorkState {
    loop {
        let family = rng.pick(&[Family::ClustersAtOne, Family::ClustersAtTwo]);
        let table = family.table(rng, n);
        let drawn = Drawn::new(WorkState {
            limit: SMALLEST_LIMIT,
            ..state_of(rng, table)
        });
        if drawn.is(outcome) && drawn.sought.nodes > 80 {
            return drawn.state;
        }
    }
}

fn after_run(state: &WorkState) -> WorkState {
    fast::run(*state, u32::MAX).state
}

/// Is the round below another child of the root than the first?
pub fn decided_late(drawn: &Drawn) -> bool {
    let first = after_run(&opened_anew(&drawn.state)).rows[0].trailing_zeros() as u8 + 1;
    drawn.is(Outcome::Found) && drawn.list[0] != first
}

pub fn ends_in_no_round(drawn: &Drawn) -> bool {
    drawn.is(Outcome::NoRound) && drawn.sought.nodes > 4
}

/// Has the highest limit fewer nodes than a low one?
pub fn limit_tells(drawn: &Drawn) -> bool {
    let nodes = |limit: u64| {
        let state = drawn.state;
        sought(&WorkState { limit, ..state }).nodes
    };
    nodes(2) > nodes(LIMIT)
}

/// Would a root that is run from the given place have other children before the one with
/// the round?
pub fn place_tells(drawn: &Drawn) -> bool {
    let there = WorkState {
        end: End::Open,
        ..drawn.state
    };
    let other = |before: u32| {
        let [at_rest, there] =
            [opened_anew(&drawn.state), there].map(|root| after_run(&root).rows[0]);
        (at_rest ^ there) & ((1 << before) - 1) != 0
    };
    drawn.is(Outcome::Found) && other(u32::from(drawn.list[0]) - 1)
}
