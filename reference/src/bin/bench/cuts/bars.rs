//! What the times of cut steps are held to.

use super::document::Row;
use crate::markdown::{head, row, unit};

/// The most that the median of a family may take of the Rust version's time.
const RATIO: f64 = 1.1;

/// The most milliseconds for the worst table of 64 stations.
const TIMES: [(Held, f64); 3] = [
    (Held::Family("full"), 2.0),
    (Held::Family("roads"), 5.0),
    (Held::All, 10.0),
];

/// The tables that a bar is for.
enum Held {
    Family(&'static str),
    All,
}

impl Held {
    fn name(&self) -> &'static str {
        match self {
            Held::Family(name) => name,
            Held::All => "any table",
        }
    }

    fn has(&self, row: &Row) -> bool {
        match self {
            Held::Family(name) => row.name == *name,
            Held::All => true,
        }
    }
}

/// The bars beside the rows of all sizes, the largest one last.
pub fn table(by_size: &[Vec<Row>]) -> String {
    let heads = ["at most", "highest", "of", "met"];
    let mut text = head("bar", &heads.map(String::from));
    let ratio = highest(by_size.iter().flatten(), Row::median_ratio);
    let most = RATIO.to_string();
    text += &line("ratio to Rust", most, ratio, RATIO, |ratio| {
        format!("{ratio:.2}")
    });
    let largest = by_size.last().expect("rows of the largest size");
    for (held, most) in TIMES {
        let rows = largest.iter().filter(|row| held.has(row));
        let worst = highest(rows, Row::worst_time);
        text += &line(held.name(), format!("{most} ms"), worst, most * 1e6, unit);
    }
    text
}

fn highest<'a>(rows: impl Iterator<Item = &'a Row>, number: fn(&Row) -> f64) -> (f64, &'a Row) {
    let numbers = rows.map(|row| (number(row), row));
    let found = numbers.max_by(|a, b| a.0.total_cmp(&b.0));
    found.expect("a row for each bar")
}

fn line(
    bar: &str,
    at_most: String,
    (highest, of): (f64, &Row),
    most: f64,
    text: fn(f64) -> String,
) -> String {
    let met = if highest <= most { "yes" } else { "no" };
    row(bar, &[at_most, text(highest), of.to_string(), met.into()])
}
