//! The times that searches of 64 stations are meant to take.

use super::document::Row;
use crate::markdown::{head, row, unit};

/// The most milliseconds for the median of a family, on a quiet machine.
const AIMS: [(&str, f64); 12] = [
    ("full", 4.0),
    ("clusters", 4.0),
    ("cubic", 4.0),
    ("knight's moves", 4.0),
    ("random, 2 legs a station", 1.0),
    ("random, 3 legs a station", 3.0),
    ("random, 4 legs a station", 3.0),
    ("random, 35 %", 4.0),
    ("ring with one-way chords", 1.0),
    ("one-way grid", 1.0),
    ("mixed grid", 3.0),
    ("band", 1.0),
];

/// The aims beside the medians of the rows of 64 stations.
pub fn table(rows: &[Row]) -> String {
    let mut text = head("tables", &["at most", "median", "met"].map(String::from));
    for (name, most) in AIMS {
        let found = rows.iter().find(|row| row.shape.name == name);
        let median = found.expect("a family of each aim").median_time();
        let met = if median <= most * 1e6 { "yes" } else { "no" };
        text += &row(name, &[format!("{most} ms"), unit(median), met.into()]);
    }
    text
}
