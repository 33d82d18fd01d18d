//! The section of `docs/BENCHMARKS.md` on the first round.

use reference::gen::Shape;
use reference::Outcome;

use super::aims;
use super::searches::{Searched, LITERAL_MOST};
use super::tables::{self, GRIDS, RUNNING_OUT, SIZES, USUAL};
use crate::document::machine;
use crate::markdown::{by_shape, grouped, head, row, spread, unit};
use crate::times::{median, REPETITIONS};

pub const HEADING: &str = "\n## First round\n";

const INTRODUCTION: &str = "
Nodes and time of the search for the first round, with the limit 64; the count of nodes is that of the rule, whatever is left out of the work. Beside it the ratios of the time to that of two other searches, in one process and on the same tables, each held to the same outcome, count and list:

- *literal*: every node is run, by the library's own run over its C interface; on tables with at most LITERAL_MOST nodes
- *Rust*: the Rust version over 64-bit words (`reference/src/fast/finder.rs`), on the run that is the same algorithm as the library's. Like the library it counts two kinds of nodes without a run: those whose decided row has one leg already, and those where sweeps and chain steps by turns come to none

Each cell has the median and the worst of TABLES tables, ratios the median and the highest. The time of a table is the median of up to REPETITIONS searches, of fewer if they take long. A search ends after BUDGET nodes; the last column counts the tables where it does. Tables on which the search says that there is no round are drawn anew; only roads have such ones. Two more two-way families:

- cubic: a ring in which roads across it join the stations in pairs, chosen at random
- knight's moves: the cells of a board of 8×8, joined by the moves of a knight; smaller boards have no round

This section can be written alone, in two to three minutes; these times were taken on MACHINE:

```
cargo run --release --offline --features library --bin bench --manifest-path reference/Cargo.toml -- --finder docs/BENCHMARKS.md
```
";

/// What was measured on the tables of one family and size.
pub struct Row {
    pub shape: &'static Shape,
    searches: Vec<Searched>,
}

impl Row {
    /// A table without a round is drawn anew.
    fn with_round(shape: &'static Shape, n: usize) -> Row {
        let searched = tables::drawn(shape, n).map(|state| Searched::of(&state, USUAL.budget));
        let kept = searched.filter(|searched| searched.sought.outcome != Outcome::NoRound);
        let searches = kept.take(USUAL.tables).collect();
        Row { shape, searches }
    }

    fn running_out(shape: &'static Shape, n: usize) -> Row {
        let states = tables::drawn(shape, n).take(RUNNING_OUT.tables);
        let searched = states.map(|state| Searched::of(&state, RUNNING_OUT.budget));
        let searches = searched.collect();
        Row { shape, searches }
    }

    fn all(&self, number: impl Fn(&Searched) -> Option<f64>) -> Vec<f64> {
        self.searches.iter().filter_map(number).collect()
    }

    pub fn median_time(&self) -> f64 {
        median(self.all(|searched| Some(searched.proved)))
    }

    fn cells(&self) -> Vec<String> {
        let nodes = self.all(|searched| Some(f64::from(searched.sought.nodes)));
        let times = self.all(|searched| Some(searched.proved));
        let literal = self.all(Searched::over_literal);
        let rust = self.all(|searched| Some(searched.over_rust()));
        let ratio = |ratio: f64| format!("{ratio:.2}");
        vec![
            spread(nodes, |nodes| grouped(nodes as u32)),
            spread(times, unit),
            spread(literal, ratio),
            spread(rust, ratio),
            self.used_up().to_string(),
        ]
    }

    fn used_up(&self) -> usize {
        let used_up = |searched: &&Searched| searched.sought.outcome == Outcome::UsedUp;
        self.searches.iter().filter(used_up).count()
    }
}

fn heads() -> [String; 5] {
    ["nodes", "time", "of literal", "of Rust", "used up"].map(String::from)
}

/// The whole section, with its heading.
pub fn section() -> String {
    let mut text = HEADING.to_string() + &introduction();
    let mut last = Vec::new();
    for n in SIZES {
        let families = tables::families(n).into_iter();
        last = families.map(|shape| Row::with_round(shape, n)).collect();
        text += &format!("\n### {n} stations\n\n{}", by_size(&last));
    }
    text += "\n### Aims at 64 stations\n\n";
    text += &aims::table(&last);
    text + &running_out()
}

fn introduction() -> String {
    INTRODUCTION
        .replace("LITERAL_MOST", &grouped(LITERAL_MOST))
        .replace("TABLES", &USUAL.tables.to_string())
        .replace("REPETITIONS", &REPETITIONS.to_string())
        .replace("BUDGET", &grouped(USUAL.budget))
        .replace("MACHINE", &machine())
}

fn by_size(rows: &[Row]) -> String {
    let rows = rows.iter();
    by_shape(
        &heads(),
        rows.map(|row| (row.shape.name, row.shape.ways, row.cells())),
    )
}

/// The families on which most searches end without an answer.
fn running_out() -> String {
    let (tables, budget) = (RUNNING_OUT.tables, grouped(RUNNING_OUT.budget));
    let mut text = format!("\n### Where it runs out\n\nGrids, stations numbered at random, {tables} tables each and up to {budget} nodes. That of 7×9 cells has no round: their number is odd, and every road joins cells of two colours.\n\n");
    text += &head("tables", &heads());
    for n in GRIDS {
        let cells = Row::running_out(tables::grid(), n).cells();
        text += &row(&format!("grid of {n} stations"), &cells);
    }
    text
}
