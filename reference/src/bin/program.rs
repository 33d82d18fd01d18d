//! Reads a sheet from standard input and prints what the filter makes of it.
//! With the argument `fast` the calls over words of bits are made instead of the
//! plain ones, with `telling` those that tell passes which change nothing.

use std::io::{self, Read, Write};

use reference::{program, Calls, Fast, Plain, Telling};

fn main() -> io::Result<()> {
    let mut sheet = Vec::new();
    io::stdin()
        .lock()
        .take(program::BYTES_READ)
        .read_to_end(&mut sheet)?;
    let calls: &dyn Calls = match std::env::args().nth(1).as_deref() {
        Some("fast") => &Fast,
        Some("telling") => &Telling,
        _ => &Plain,
    };
    io::stdout().write_all(program::output(calls, &sheet).as_bytes())
}
