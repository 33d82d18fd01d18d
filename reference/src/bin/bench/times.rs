//! Taking the times.

use std::hint::black_box;
use std::time::Instant;

use reference::words::{to_words, Words};
use reference::written::WRITTEN_MOST;

use crate::shapes::{Input, Inputs};
use crate::sides::{Plain, Proved, Same, Side};
use crate::SIZES;

/// A time is a median of so many repetitions in all. The sides take turns, a few
/// repetitions at a time, so that none has the quieter machine.
const TURNS: usize = 3;
const IN_A_TURN: usize = 5;
pub const REPETITIONS: usize = TURNS * IN_A_TURN;

/// Short calls in one repetition; a pass has each seed among them.
const CALLS: usize = 64;

#[derive(Clone, Copy, PartialEq, Eq)]
pub enum Timed {
    Run,
    Pass,
    Sweep,
    Chain,
    Open,
    Write,
}

impl Timed {
    pub const ALL: [Timed; 6] = [
        Timed::Run,
        Timed::Pass,
        Timed::Sweep,
        Timed::Chain,
        Timed::Open,
        Timed::Write,
    ];

    pub fn name(self) -> &'static str {
        match self {
            Timed::Run => "whole run",
            Timed::Pass => "pass",
            Timed::Sweep => "sweep",
            Timed::Chain => "chain step",
            Timed::Open => "open",
            Timed::Write => "write",
        }
    }

    /// Whether the two Rust versions differ in this call.
    pub fn in_two_versions(self) -> bool {
        matches!(self, Timed::Run | Timed::Pass)
    }
}

/// Nanoseconds per call, means over the tables.
#[derive(Clone, Copy, Default)]
pub struct Times {
    pub proved: f64,
    /// The same algorithm in Rust; 0 if there is only one Rust version of the call.
    pub same: f64,
    pub plain: f64,
}

impl Times {
    pub fn over_same(&self) -> f64 {
        self.proved / self.same
    }

    pub fn over_plain(&self) -> f64 {
        self.proved / self.plain
    }

    fn of(call: Timed, inputs: &[Input]) -> Times {
        let share = 1.0 / inputs.len() as f64;
        let mut times = Times::default();
        for input in inputs {
            let mut sides = vec![repeated::<Proved>(call, input)];
            sides.push(repeated::<Plain>(call, input));
            if call.in_two_versions() {
                sides.push(repeated::<Same>(call, input));
            }
            let medians = medians(&mut sides);
            times.proved += medians[0] * share;
            times.plain += medians[1] * share;
            times.same += medians.get(2).unwrap_or(&0.0) * share;
        }
        times
    }
}

/// The times of one shape, for each of the sizes.
pub struct Row {
    pub shape: &'static str,
    pub by_size: [Times; SIZES.len()],
}

/// The times of one call.
pub struct Results {
    pub call: Timed,
    pub rows: Vec<Row>,
}

impl Results {
    pub fn of(call: Timed, shapes: &[Inputs]) -> Results {
        let times = |inputs: &Vec<Input>| Times::of(call, inputs);
        let row = |shape: &Inputs| Row {
            shape: shape.name,
            by_size: shape.by_size.each_ref().map(times),
        };
        Results {
            call,
            rows: shapes.iter().map(row).collect(),
        }
    }

    /// All times, each with its shape and the number of stations.
    pub fn all(&self) -> impl Iterator<Item = (&'static str, usize, &Times)> {
        self.rows.iter().flat_map(|row| {
            let by_size = SIZES.iter().zip(&row.by_size);
            by_size.map(|(&n, times)| (row.shape, n, times))
        })
    }
}

/// What makes one repetition and tells its time per call.
pub type Repetition<'a> = Box<dyn FnMut() -> f64 + 'a>;

fn repeated<S: Side>(call: Timed, input: &Input) -> Repetition<'_> {
    let n = input.state.n as usize;
    let words = to_words(&input.state);
    let mut buffer = [0; WRITTEN_MOST];
    match call {
        Timed::Run => repeat(words, 2 * CALLS / n, |_, words| S::run(words)),
        Timed::Pass => repeat(words, CALLS, move |at, words| S::pass(words, at % n + 1)),
        Timed::Sweep => repeat(words, CALLS, |_, words| S::sweep(words)),
        Timed::Chain => repeat(words, CALLS, |_, words| S::chain(words)),
        Timed::Open => repeat(words, CALLS, |_, words| S::open(&input.sheet, words)),
        Timed::Write => repeat(words, CALLS, move |_, words| {
            S::write(words, black_box(&mut buffer))
        }),
    }
}

/// A repetition makes `count` calls, each on a copy of the words of its own.
fn repeat<'a>(
    words: Words,
    count: usize,
    mut call: impl FnMut(usize, &mut Words) + 'a,
) -> Repetition<'a> {
    let mut copies = vec![words; count];
    Box::new(move || {
        copies.fill(words);
        let start = Instant::now();
        for (at, copy) in copies.iter_mut().enumerate() {
            call(at, black_box(copy));
        }
        start.elapsed().as_nanos() as f64 / count as f64
    })
}

/// The median time of each side.
pub fn medians(sides: &mut [Repetition]) -> Vec<f64> {
    let mut times = vec![Vec::new(); sides.len()];
    for turn in 0..TURNS {
        for (side, times) in sides.iter_mut().zip(&mut times) {
            let in_turn = turn * IN_A_TURN..(turn + 1) * IN_A_TURN;
            times.extend(in_turn.map(|depth| at_depth(depth, side)));
        }
    }
    times.into_iter().map(median).collect()
}

/// The middle one; of an even number the upper one of the two.
pub fn median(mut numbers: Vec<f64>) -> f64 {
    numbers.sort_by(f64::total_cmp);
    numbers[numbers.len() / 2]
}

/// A repetition farther down the stack. By where their working space comes to lie,
/// some calls take a fifth longer, and chance says where the stack begins.
#[inline(never)]
pub fn at_depth(depth: usize, repetition: &mut Repetition) -> f64 {
    let room = black_box([0_u8; 200]);
    let time = match depth {
        0 => repetition(),
        _ => at_depth(depth - 1, repetition),
    };
    black_box(room);
    time
}
