//! Searches by the library and by two others beside it.

use std::cell::OnceCell;
use std::time::{Duration, Instant};

use reference::finder::{first_round_by, Outcome, Sought};
use reference::{fast, Calls, Library, WorkState};

use crate::times::{at_depth, median, Repetition, REPETITIONS};

/// The search that runs every node is made where it has at most so many.
pub const LITERAL_MOST: u32 = 2_000;

/// No repetition begins later than this after the first one.
const SPAN: Duration = Duration::from_millis(100);

type Search = fn(&WorkState, u32, &mut [u8]) -> Sought;

/// What was measured on one table; times in nanoseconds.
pub struct Searched {
    pub sought: Sought,
    pub proved: f64,
    pub rust: f64,
    pub literal: Option<f64>,
}

fn proved(state: &WorkState, budget: u32, list: &mut [u8]) -> Sought {
    Library.first_round(state, budget, list)
}

/// The library's own run at every node.
fn literal(state: &WorkState, budget: u32, list: &mut [u8]) -> Sought {
    first_round_by(&Library, state, budget, list)
}

impl Searched {
    pub fn of(state: &WorkState, budget: u32) -> Searched {
        let mut searches: Vec<Search> = vec![proved, fast::first_round];
        if takes_few_nodes(state) {
            searches.push(literal);
        }
        let answer = OnceCell::new();
        let repeated = |search: &Search| repeated(*search, state, budget, &answer);
        let mut sides: Vec<Repetition> = searches.iter().map(repeated).collect();
        let medians = medians(&mut sides);
        drop(sides);
        let (sought, _) = answer.into_inner().expect("an answer");
        Searched {
            sought,
            proved: medians[0],
            rust: medians[1],
            literal: medians.get(2).copied(),
        }
    }

    pub fn over_rust(&self) -> f64 {
        self.proved / self.rust
    }

    pub fn over_literal(&self) -> Option<f64> {
        self.literal.map(|literal| self.proved / literal)
    }
}

fn takes_few_nodes(state: &WorkState) -> bool {
    let mut list = [0; 64];
    let list = &mut list[..state.n as usize];
    fast::first_round(state, LITERAL_MOST, list).outcome != Outcome::UsedUp
}

/// A repetition is one search. Times mean something only for the same work, so each has
/// to come to the same answer.
fn repeated<'a>(
    search: Search,
    state: &'a WorkState,
    budget: u32,
    answer: &'a OnceCell<(Sought, [u8; 64])>,
) -> Repetition<'a> {
    Box::new(move || {
        let mut list = [0; 64];
        let start = Instant::now();
        let sought = search(state, budget, &mut list[..state.n as usize]);
        let time = start.elapsed().as_nanos() as f64;
        assert_eq!(*answer.get_or_init(|| (sought, list)), (sought, list));
        time
    })
}

/// The median time of each side. They take turns; long searches have fewer of them.
fn medians(sides: &mut [Repetition]) -> Vec<f64> {
    let start = Instant::now();
    let mut times = vec![Vec::new(); sides.len()];
    for turn in 0..REPETITIONS {
        if turn > 0 && start.elapsed() > SPAN {
            break;
        }
        for (side, times) in sides.iter_mut().zip(&mut times) {
            times.push(at_depth(turn, side));
        }
    }
    times.into_iter().map(median).collect()
}
