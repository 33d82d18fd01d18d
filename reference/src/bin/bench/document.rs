//! The text of `docs/BENCHMARKS.md`.

use std::fs;

use reference::fast;

use crate::base::Base;
use crate::markdown::{capital, print_by_shape, size_heads, unit};
use crate::shapes::{Input, Inputs};
use crate::times::{Results, Times, REPETITIONS};
use crate::{bars, components, cuts, finder, SIZES, TABLES};

const HEAD: &str = "\
# Benchmarks

The proved library beside two Rust versions over 64-bit words (`reference/src/fast`), in one process and on the same tables. The *plain* version works through every level of every pass. The *same algorithm* does what the library does: it keeps a word of passes known to change nothing, answers at once for a seed next to all other stations, and tells most other passes that change nothing by pivots. The two differ in passes and runs alone.

All numbers come from one call of the last line, on MACHINE; those of the last two sections may also come from the calls that they name:

```
git worktree add --detach ../base 6b2b745
(cd ../base && rt staticlib loungeegret && rt staticlib measured)
RUSTFLAGS='-C link-arg=-Wl,--defsym=loungeegret_first_round=0,--defsym=loungeegret_cut=0' LOUNGEEGRET_LIB=$PWD/../base/target/staticlib cargo run --release --offline --features library --bin bench --manifest-path reference/Cargo.toml -- --times target/base.times
./build loungeegret
./build measured
cargo run --release --offline --features library --bin bench --manifest-path reference/Cargo.toml -- --base target/base.times > docs/BENCHMARKS.md
```

The first three lines write the times of commit 6b2b745, *the base*: taken by the same program, on the same tables. It was written for the older kit, `rattle-kit-5b-plain`, whose `rt` the second line needs. It has no search for a round and no cut step, which are not timed there, so the linker is told to take their symbols for 0. Without `--base` the last line leaves out what is told against them.
";

const NOTES: &str = "\
- All sides get the state in 69 lent words. The Rust versions load it from there and store it back, which is part of their time, as is what a call clears of its own working space. The words are copied in afresh before each repetition, outside the time taken.
- The limit is 64. A run goes on until it is stable: only tables with this end are taken. The sheets that are opened have next sets, previous sets and fixed fields. A sheet is written into a lent buffer of 577 bytes, the length of the longest one.
- *Growth* is the exponent with which a time grows with the number of stations from 16 to 64: the logarithm of the ratio of the times over that of 4.

## Tables

All stations are numbered at random. Two-way, each leg stands the other way too:

- full: all legs
- roads: points at random in a square, two joined if no other one lies in the circle that has their road as its diameter (a Gabriel graph)
- clusters: groups of four to six stations in a line, neighbours sharing two; 60, 85 or 100 % of the roads inside them, and those of a round
- ring with chords: n/2, n or 2n chords between stations two to six places apart
- grid: cells joined to their neighbours

One-way:

- random: a round, and each leg with the same chance, so that a station has about 2, 3 or 4 legs, or 35 % of all
- plain ring: a round and no other leg
- ring with one-way chords: as above, each leg in one direction
- one-way grid: each road in one direction, that of a round over all cells where it comes along
- mixed grid: a third of the roads each in one direction, in the other and in both, and that round
- band: stations in a line, legs one or two places on and one place back, and the round up by the odd places and down by the even ones

All but roads have a round for certain. Of roads about one table in four ends stable, of 64 stations one in eight; tables are drawn until there are enough.";

pub fn print(shapes: &[Inputs], results: &[Results], base: Option<&Base>) {
    println!("{}", HEAD.replace("MACHINE", &machine()));
    println!("- A time is the median of {REPETITIONS} repetitions, in which the sides take turns, and the mean over {TABLES} tables; for a pass also over all seeds.");
    println!("{NOTES}");
    print_runs(shapes);
    for call in results {
        print_times(shapes, call);
    }
    print_components(shapes);
    if let Some(base) = base {
        println!("\n## Times against the base\n");
        println!("What a call of the library takes of its time in the base, for 8, 16, 32 and 64 stations. Both times are measured by the plain Rust version timed beside them, so that it does not count if the machine was busier one time.\n");
        base.print(shapes, results);
    }
    println!("\n## Bars\n");
    println!("The most that the library may take of the plain Rust version's time, and the highest ratio of all families.\n");
    bars::print(results);
    print!("{}", finder::section());
    print!("{}", cuts::section());
}

/// The processor's name and the number of its cores.
pub fn machine() -> String {
    let told = fs::read_to_string("/proc/cpuinfo").unwrap_or_default();
    let mut names = told.lines().filter(|line| line.starts_with("model name"));
    let name = names.next().and_then(|line| line.split(": ").nth(1));
    let cores = std::thread::available_parallelism().map_or(1, usize::from);
    format!("{}, {cores} cores", name.unwrap_or("an unknown processor"))
}

/// What the timed runs do: steps and removed legs.
fn print_runs(shapes: &[Inputs]) {
    println!("\nSteps of a whole run, and legs that it removes of all:\n");
    print_by_shape(shapes, &size_heads(), |at| {
        let by_size = shapes[at].by_size.iter();
        by_size.map(|inputs| run_cell(inputs)).collect()
    });
}

fn run_cell(inputs: &[Input]) -> String {
    let (mut steps, mut removed, mut legs) = (0, 0, 0);
    for input in inputs {
        let ran = fast::run(input.state, u32::MAX);
        steps += u64::from(ran.steps);
        removed += ran.removed;
        legs += input.state.legs();
    }
    let mean = |sum: u64| (sum as f64 / inputs.len() as f64).round();
    format!("{} steps, {} of {}", mean(steps), mean(removed), mean(legs))
}

fn print_times(shapes: &[Inputs], results: &Results) {
    let two = results.call.in_two_versions();
    println!("\n## {}\n", capital(results.call.name()));
    if two {
        println!("Time per call of the proved library, and in brackets its ratios to the same algorithm in Rust and to the plain version. Growth of the three.\n");
    } else {
        println!("Time per call of the proved library, and in brackets its ratio to the Rust version. Growth of both.\n");
    }
    let mut heads = size_heads();
    heads.push("growth".into());
    print_by_shape(shapes, &heads, |at| {
        let by_size = &results.rows[at].by_size;
        let mut cells: Vec<String> = by_size.iter().map(|times| cell(times, two)).collect();
        cells.push(growth_cell(by_size, two));
        cells
    });
}

fn cell(times: &Times, two: bool) -> String {
    let (time, plain) = (unit(times.proved), times.over_plain());
    match two {
        true => format!("{time} ({:.2}, {plain:.2})", times.over_same()),
        false => format!("{time} ({plain:.2})"),
    }
}

fn growth_cell(by_size: &[Times; SIZES.len()], two: bool) -> String {
    let [_, from, _, to] = by_size;
    let growth =
        |time: fn(&Times) -> f64| format!("{:.1}", (time(to) / time(from)).ln() / 4_f64.ln());
    let mut cells = vec![growth(|times| times.proved)];
    if two {
        cells.push(growth(|times| times.same));
    }
    cells.push(growth(|times| times.plain));
    cells.join(", ")
}

/// The inner levels of a pass, and the times for one of them.
fn print_components(shapes: &[Inputs]) {
    println!("\n## Components\n");
    println!("Inner levels of a pass, the mean over all seeds; the time in which the library finds the components outside one of them, and in brackets its ratio to the loop of the Rust versions. The words of the neighbours are gathered before.\n");
    print_by_shape(shapes, &size_heads(), |at| {
        components::times(&shapes[at])
            .map(|times| components_cell(&times))
            .into()
    });
}

fn components_cell(times: &components::Times) -> String {
    let components::Times {
        levels,
        proved,
        rust,
    } = times;
    if *levels == 0.0 {
        return "–".into();
    }
    format!("{levels:.1}; {} ({:.2})", unit(*proved), proved / rust)
}
