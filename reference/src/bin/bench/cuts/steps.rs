//! Cut steps by the library and by the Rust version, on lent words.

use std::hint::black_box;
use std::time::Instant;

use reference::library::raw;
use reference::state::Rows;
use reference::words::{from_words, to_words, Words, N};
use reference::{fast, End};

use super::networks::Network;
use crate::times::{medians, Repetition};

/// Steps of a repetition, times the stations: on few stations a step is short.
const CALLS: usize = 128;

/// The words of a state, and those of its must-drive roads.
type Lent = (Words, Rows);

type Step = fn(&mut Lent) -> (u32, u32);

/// What a step did, and the times that it takes, in nanoseconds.
pub struct Stepped {
    pub roads: u32,
    pub must: u32,
    /// Roads that become must-drive, and roads that go.
    pub more: u32,
    pub gone: u32,
    pub none: bool,
    pub proved: f64,
    pub rust: f64,
}

impl Stepped {
    pub fn of(network: &Network) -> Stepped {
        let before = (to_words(&network.state), network.must);
        let after = after(&before);
        let repeated = |step| repeated(step, &before);
        let medians = medians(&mut [proved, rust].map(repeated));
        let must = roads(&before.1);
        Stepped {
            roads: roads(&network.state.rows),
            must,
            more: roads(&after.1) - must,
            gone: roads(&network.state.rows) - roads(&after.0[..64]),
            none: from_words(&after.0).is_some_and(|state| state.end == End::None),
            proved: medians[0],
            rust: medians[1],
        }
    }

    pub fn over_rust(&self) -> f64 {
        self.proved / self.rust
    }
}

/// The roads of a two-way table.
fn roads(rows: &[u64]) -> u32 {
    rows.iter().map(|row| row.count_ones()).sum::<u32>() / 2
}

fn proved(lent: &mut Lent) -> (u32, u32) {
    let mut removed = 0;
    let number = raw::cut(&mut lent.0, &mut lent.1, &mut removed);
    (number, removed)
}

fn rust(lent: &mut Lent) -> (u32, u32) {
    let state = from_words(&lent.0).expect("words of a state");
    let done = fast::cut(state, &lent.1);
    *lent = (to_words(&done.state), done.must);
    (u32::from(done.number), done.removed as u32)
}

/// Times mean something only for the same work.
fn after(before: &Lent) -> Lent {
    let (mut after, mut other) = (*before, *before);
    assert_eq!(proved(&mut after), rust(&mut other));
    assert_eq!(after, other);
    after
}

/// A repetition makes each step on a copy of its own.
fn repeated(step: Step, before: &Lent) -> Repetition<'_> {
    let stations = before.0[N] as usize;
    let mut copies = vec![*before; CALLS / stations];
    Box::new(move || {
        copies.fill(*before);
        let start = Instant::now();
        for copy in &mut copies {
            black_box(step(black_box(copy)));
        }
        start.elapsed().as_nanos() as f64 / copies.len() as f64
    })
}
