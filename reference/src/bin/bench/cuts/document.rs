//! The section of `docs/BENCHMARKS.md` on the cut step.

use std::fmt;

use super::bars;
use super::networks::{self, Family, SIZES, TABLES};
use super::steps::Stepped;
use crate::document::machine;
use crate::markdown::{head, row, spread, unit};
use crate::times::{median, REPETITIONS};

pub const HEADING: &str = "\n## Cut step\n";

const INTRODUCTION: &str = "
Time of a cut step on two-way tables, and its ratio to the Rust version over 64-bit words (`reference/src/fast/cut.rs`), in one process and on the same tables. Both grow a spanning tree and try the sums of up to three of its words as splits, 41,727 different ones on 64 stations. Both get the state and the must-drive roads in lent words, and they are held to the same answer and the same words.

Each cell has the median and the highest of TABLES tables: the roads before the step, those of them that are must-drive, those that become so and those that go, then time and ratio. *None* counts the tables with this verdict. The time of a table is the median of REPETITIONS repetitions. There are the two-way families of the other sections, as far as the step does not give none: roads are drawn anew until it does not. More families, stations numbered at random:

- ladder: two sides with rungs between them
- two-way ring: a ring and no other road, so that any two roads are a cut
- three paths: they join two stations and share out the others; on 64 stations 10,164 of the sums are cuts of three roads. With two of the paths must-drive the verdict is none, but no cut alone says so
- path: every road is a cut, so that the first split says none
- ring with roads across: n/2 of them at random, and every second road of the ring is must-drive

The second group has the tables of the first one after a step.

This section can be written alone, in about a minute; these times were taken on MACHINE:

```
cargo run --release --offline --features library --bin bench --manifest-path reference/Cargo.toml -- --cuts docs/BENCHMARKS.md
```
";

/// What was measured on the networks of one family and size.
pub struct Row {
    pub name: &'static str,
    group: &'static str,
    n: usize,
    steps: Vec<Stepped>,
}

impl fmt::Display for Row {
    fn fmt(&self, out: &mut fmt::Formatter) -> fmt::Result {
        write!(out, "{}, {}, {} stations", self.name, self.group, self.n)
    }
}

impl Row {
    fn of(family: &Family, group: &'static str, n: usize) -> Row {
        let networks = family.networks(n);
        Row {
            name: family.name,
            group,
            n,
            steps: networks.map(|network| Stepped::of(&network)).collect(),
        }
    }

    fn all(&self, number: impl Fn(&Stepped) -> f64) -> Vec<f64> {
        self.steps.iter().map(number).collect()
    }

    pub fn median_ratio(&self) -> f64 {
        median(self.all(Stepped::over_rust))
    }

    pub fn worst_time(&self) -> f64 {
        self.all(|step| step.proved).into_iter().fold(0.0, f64::max)
    }

    fn nones(&self) -> usize {
        self.steps.iter().filter(|step| step.none).count()
    }

    fn cells(&self) -> Vec<String> {
        let count = |count: fn(&Stepped) -> u32| {
            let counts = self.all(|step| f64::from(count(step)));
            spread(counts, |count| count.to_string())
        };
        vec![
            count(|step| step.roads),
            count(|step| step.must),
            count(|step| step.more),
            count(|step| step.gone),
            self.nones().to_string(),
            spread(self.all(|step| step.proved), unit),
            spread(self.all(Stepped::over_rust), |ratio| format!("{ratio:.2}")),
        ]
    }
}

const HEADS: [&str; 7] = [
    "roads",
    "must-drive",
    "become so",
    "go",
    "none",
    "time",
    "of Rust",
];

/// The whole section, with its heading.
pub fn section() -> String {
    let mut text = HEADING.to_string() + &introduction();
    let mut by_size = Vec::new();
    for n in SIZES {
        let mut rows = Vec::new();
        text += &format!("\n### Cuts on {n} stations\n\n");
        text += &head("tables", &HEADS.map(String::from));
        for group in networks::groups(n) {
            let title = format!("**{}**", group.name);
            text += &row(&title, &HEADS.map(|_| String::new()));
            for family in &group.families {
                let measured = Row::of(family, group.name, n);
                text += &row(measured.name, &measured.cells());
                rows.push(measured);
            }
        }
        by_size.push(rows);
    }
    text + "\n### Bars of the cut step\n\n" + &bars::table(&by_size)
}

fn introduction() -> String {
    INTRODUCTION
        .replace("TABLES", &TABLES.to_string())
        .replace("REPETITIONS", &REPETITIONS.to_string())
        .replace("MACHINE", &machine())
}
