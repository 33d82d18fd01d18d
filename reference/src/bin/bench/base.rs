//! The times of another archive, from a file that the same benchmark has written.

use std::collections::HashMap;
use std::fs;

use reference::gen::SHAPES;

use crate::markdown::print_by_shape;
use crate::shapes::Inputs;
use crate::times::{Results, Timed, Times};
use crate::SIZES;

/// The calls whose times are told against the base.
const CALLS: [Timed; 4] = [Timed::Run, Timed::Pass, Timed::Sweep, Timed::Open];

/// Times of the library and of the plain Rust version by call, shape and stations.
pub struct Base(HashMap<String, (f64, f64)>);

fn key(call: Timed, shape: &str, n: usize) -> String {
    format!("{}\t{shape}\t{n}", call.name())
}

/// The lines of a file of times.
pub fn lines(results: &[Results]) -> String {
    let mut lines = String::new();
    for results in results {
        for (shape, n, times) in results.all() {
            let key = key(results.call, shape, n);
            lines += &format!("{key}\t{}\t{}\n", times.proved, times.plain);
        }
    }
    lines
}

impl Base {
    pub fn read(file: &str) -> Result<Base, String> {
        let text = fs::read_to_string(file).map_err(|fault| format!("{file}: {fault}"))?;
        let entry = |line: &str| {
            let (rest, plain) = line.rsplit_once('\t')?;
            let (key, proved) = rest.rsplit_once('\t')?;
            Some((key.to_string(), (proved.parse().ok()?, plain.parse().ok()?)))
        };
        let base = text.lines().map(entry).collect::<Option<_>>().map(Base);
        base.filter(Base::has_all)
            .ok_or(format!("{file} has not the times of these tables"))
    }

    fn has_all(&self) -> bool {
        CALLS.into_iter().all(|call| {
            let has = |shape, n| self.0.contains_key(&key(call, shape, n));
            SHAPES
                .iter()
                .all(|shape| SIZES.iter().all(|&n| has(shape.name, n)))
        })
    }

    /// What the library takes of its time in the base. Both times are measured by the
    /// plain Rust version, which was timed beside them in turns, so that it does not
    /// count if the machine was busier one time.
    fn ratio(&self, call: Timed, shape: &str, n: usize, times: &Times) -> f64 {
        let (proved, plain) = self.0[&key(call, shape, n)];
        times.over_plain() / (proved / plain)
    }

    pub fn print(&self, shapes: &[Inputs], results: &[Results]) {
        let told = |results: &&Results| CALLS.contains(&results.call);
        let told: Vec<&Results> = results.iter().filter(told).collect();
        let heads: Vec<String> = told.iter().map(|call| call.call.name().into()).collect();
        print_by_shape(shapes, &heads, |at| {
            told.iter().map(|call| self.cell(call, at)).collect()
        });
    }

    /// The ratios of one shape for all sizes.
    fn cell(&self, results: &Results, at: usize) -> String {
        let row = &results.rows[at];
        let sizes = SIZES.iter().zip(&row.by_size);
        let ratios = sizes.map(|(&n, times)| self.ratio(results.call, row.shape, n, times));
        let cells: Vec<String> = ratios.map(|ratio| format!("{ratio:.2}")).collect();
        cells.join(", ")
    }
}
