//! The components outside a level alone, without the rest of a pass.

use std::hint::black_box;
use std::time::Instant;

use reference::library::measured;
use reference::state::Rows;
use reference::table::word_of;
use reference::{fast, graph};

use crate::shapes::{Input, Inputs};
use crate::times::{medians, Repetition};
use crate::SIZES;

/// A call may take less time than reading the clock, so a repetition makes at
/// least so many.
const FEWEST_CALLS: usize = 1_000;

/// What there is to do on a table: for each inner level of each seed the
/// stations outside it.
struct Work {
    neighbours: Rows,
    outside: Vec<u64>,
}

impl Work {
    fn of(input: &Input) -> Work {
        let table = input.state.table();
        let all = word_of(&table.stations().collect());
        let mut outside = Vec::new();
        for seed in table.stations() {
            let levels = graph::levels(&table, seed);
            let inner = graph::inner(&levels).iter();
            outside.extend(inner.map(|level| all & !word_of(level)));
        }
        Work {
            neighbours: table.neighbour_words(),
            outside,
        }
    }

    /// Times mean something only for the same work.
    fn assert_same_components(&self) {
        for &outside in &self.outside {
            let (mut proved, mut rust) = ([0; 64], [0; 64]);
            assert_eq!(
                measured::components(&self.neighbours, outside, &mut proved),
                fast::components(&self.neighbours, outside, &mut rust)
            );
            assert_eq!(proved, rust);
        }
    }

    /// A repetition over all levels together.
    fn repeated<'a>(
        &'a self,
        components: impl Fn(&Rows, u64, &mut Rows) -> usize + 'a,
    ) -> Repetition<'a> {
        let rounds = FEWEST_CALLS.div_ceil(self.outside.len());
        let mut part = [0; 64];
        Box::new(move || {
            let start = Instant::now();
            for _ in 0..rounds {
                for &outside in &self.outside {
                    let neighbours = black_box(&self.neighbours);
                    black_box(components(neighbours, outside, black_box(&mut part)));
                }
            }
            start.elapsed().as_nanos() as f64 / rounds as f64
        })
    }
}

/// Means over the tables of one shape and size.
pub struct Times {
    /// Inner levels of a pass.
    pub levels: f64,
    /// Nanoseconds for one level.
    pub proved: f64,
    pub rust: f64,
}

impl Times {
    fn of(inputs: &[Input]) -> Times {
        let (mut passes, mut levels) = (0.0, 0.0);
        let (mut proved, mut rust) = (0.0, 0.0);
        for input in inputs {
            let work = Work::of(input);
            work.assert_same_components();
            passes += input.state.n as f64;
            levels += work.outside.len() as f64;
            if !work.outside.is_empty() {
                let calls = [measured::components, fast::components];
                let medians = medians(&mut calls.map(|call| work.repeated(call)));
                proved += medians[0];
                rust += medians[1];
            }
        }
        Times {
            levels: levels / passes,
            proved: proved / levels,
            rust: rust / levels,
        }
    }
}

/// The times of one shape, for each of the sizes.
pub fn times(shape: &Inputs) -> [Times; SIZES.len()] {
    shape.by_size.each_ref().map(|inputs| Times::of(inputs))
}
