//! Answers a script from standard input. With the argument `fast` the calls
//! over words of bits answer instead of the plain ones, with `telling` those that
//! tell passes which change nothing.

use std::io::{self, BufWriter, Read, Write};

use reference::script::play;
use reference::{Fast, Plain, Telling};

fn main() -> io::Result<()> {
    let mut script = Vec::new();
    io::stdin().lock().read_to_end(&mut script)?;
    let mut out = BufWriter::new(io::stdout().lock());
    match std::env::args().nth(1).as_deref() {
        Some("fast") => play(&Fast, &script, &mut out)?,
        Some("telling") => play(&Telling, &script, &mut out)?,
        _ => play(&Plain, &script, &mut out)?,
    }
    out.flush()
}
