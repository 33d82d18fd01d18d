//! Times the proved library beside two Rust versions, in one process and on the
//! same tables.
//!
//! `bench` prints `docs/BENCHMARKS.md`, with `--base FILE` also the times against
//! those in the file. `bench --times FILE` writes the times to such a file, and
//! `bench --finder FILE` writes the section on the first round of such a document anew,
//! `bench --cuts FILE` the one on the cut step.

mod bars;
mod base;
mod components;
mod cuts;
mod document;
mod finder;
mod markdown;
mod shapes;
mod sides;
mod times;

use std::{env, fs, process};

use reference::gen::SHAPES;

use self::base::Base;
use self::shapes::Inputs;
use self::times::{Results, Timed};

const SIZES: [usize; 4] = [8, 16, 32, 64];
const TABLES: usize = 6;
const LIMIT: usize = 64;

const USAGE: &str = "usage: bench [--base FILE | --times FILE | --finder FILE | --cuts FILE]";

fn main() {
    let arguments: Vec<String> = env::args().skip(1).collect();
    let arguments: Vec<&str> = arguments.iter().map(String::as_str).collect();
    let done = match arguments[..] {
        [] => print(None),
        ["--base", file] => Base::read(file).and_then(|base| print(Some(&base))),
        ["--times", file] => write_times(file),
        ["--finder", file] => write_section(file, finder::HEADING, finder::section),
        ["--cuts", file] => write_section(file, cuts::HEADING, cuts::section),
        _ => Err(USAGE.into()),
    };
    if let Err(message) = done {
        eprintln!("bench: {message}");
        process::exit(2);
    }
}

fn timed(shapes: &[Inputs]) -> [Results; Timed::ALL.len()] {
    Timed::ALL.map(|call| Results::of(call, shapes))
}

fn print(base: Option<&Base>) -> Result<(), String> {
    let shapes = SHAPES.map(Inputs::of);
    document::print(&shapes, &timed(&shapes), base);
    Ok(())
}

fn write_times(file: &str) -> Result<(), String> {
    let results = timed(&SHAPES.map(Inputs::of));
    write(file, base::lines(&results))
}

/// The other sections stay. One that the document does not have yet comes last.
fn write_section(file: &str, heading: &str, section: fn() -> String) -> Result<(), String> {
    let text = fs::read_to_string(file).map_err(|fault| format!("{file}: {fault}"))?;
    let (before, rest) = text.split_once(heading).unwrap_or((&text, ""));
    let after = rest.find("\n## ").map_or("", |at| &rest[at..]);
    write(file, before.to_string() + &section() + after)
}

fn write(file: &str, text: String) -> Result<(), String> {
    fs::write(file, text).map_err(|fault| format!("{file}: {fault}"))
}
