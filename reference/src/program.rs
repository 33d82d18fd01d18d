//! What the program prints for a sheet, and the call that writes it into a lent
//! buffer.

use crate::calls::Calls;
use crate::card;
use crate::filled::{fill, Filled};
use crate::lines::station_lines;
use crate::state::End;

pub const LIMIT: u64 = 64;
pub const BUDGET: u32 = 300_000;

/// One byte more than the longest sheet: enough to see an overhang.
pub const BYTES_READ: u64 = 1_154;

/// Room for every text.
pub const PRINT_MOST: usize = 11_835;

/// Writes the text to the start of the buffer, also that of a refused sheet.
pub fn print(calls: &dyn Calls, sheet: &[u8], buffer: &mut [u8]) -> Filled {
    fill(output(calls, sheet).as_bytes(), buffer)
}

pub fn output(calls: &dyn Calls, sheet: &[u8]) -> String {
    let opened = calls.open(sheet, LIMIT);
    if opened.number != card::TAKEN {
        return format!("refused {} at {}\n", opened.number, opened.place);
    }
    let ran = calls.run(opened.state, BUDGET);
    let mut text = format!(
        "stations {} legs {}\nsteps {} removed {} end {}\n",
        opened.state.n,
        opened.state.legs(),
        ran.steps,
        ran.removed,
        ran.state.end.word()
    );
    if ran.state.end != End::None {
        text += &station_lines(&ran.state.table());
    }
    text
}
