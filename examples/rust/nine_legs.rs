//! Prunes a sheet, the one in the file that is named or else the sheet of nine legs, by cut steps, where the network is two-way, and
//! a run. Prints how the run ended and, unless that is none, the station lines and the first round; where a second file is named,
//! the sheet of what is left goes there. The exit status is that of ./prune: 0 pruned, 1 refused, 2 something failed, 3 the end none.
use std::ffi::OsString;
use std::fs::{self, File};
use std::io::{self, Read, Write};
use std::process::ExitCode;

// A slice goes as a pointer and a length.
#[link(name = "loungeegret", kind = "static")]
unsafe extern "C" {
    fn loungeegret_open(
        sheet: *const u8,
        sheet_length: usize,
        limit: usize,
        state: *mut u64,
        state_length: usize,
        place: &mut usize,
    ) -> u32;
    fn loungeegret_run(
        state: *mut u64,
        state_length: usize,
        budget: u32,
        steps: &mut u32,
        removed: &mut u32,
    ) -> u32;
    fn loungeegret_cut(
        state: *mut u64,
        state_length: usize,
        must: *mut u64,
        must_length: usize,
        removed: &mut u32,
    ) -> u32;
    fn loungeegret_first_round(
        state: *const u64,
        state_length: usize,
        budget: u32,
        list: *mut u8,
        list_length: usize,
        outcome: &mut u32,
        nodes: &mut u32,
    ) -> u32;
    fn loungeegret_report(
        state: *const u64,
        state_length: usize,
        buf: *mut u8,
        buf_length: usize,
        length: &mut usize,
    ) -> u32;
    fn loungeegret_write(
        state: *const u64,
        state_length: usize,
        buf: *mut u8,
        buf_length: usize,
        length: &mut usize,
    ) -> u32;
}

const TAKEN: u32 = 0;
const NOT_TWO_WAY: u32 = 11;
const FOUND: u32 = 1;
const NO_ROUND: u32 = 2;
const N: usize = 64;
const END: usize = 68;
const STATE_WORDS: usize = 69;
const ROWS: usize = 64;
const SHEET_MOST: u64 = 1153;
const TEXT_MOST: usize = 11776;
const WRITTEN_MOST: usize = 577;
const FULL_BUDGET: u32 = 300_000;
/// What the search for a round may take, in nodes.
const NODE_BUDGET: u32 = 10_000;
const WORDS: [&str; 3] = ["open", "stable", "none"];

#[rustfmt::skip]
const NINE_LEGS: [u8; 27] = [
    6,
    1, 0x0E, 0, 0, 0, 0, 0, 0, 0,
    1, 0x11, 0, 0, 0, 0, 0, 0, 0,
    4, 6,
    4, 2,
    4, 3,
    4, 1,
];

fn main() -> ExitCode {
    let mut names = std::env::args_os().skip(1);
    let (sheet, struck) = (load(names.next()), names.next());
    match sheet.and_then(|sheet| prune(&sheet, &mut io::stdout(), struck)) {
        Ok(status) => ExitCode::from(status),
        Err(error) => {
            eprintln!("nine_legs: {error}");
            ExitCode::from(2)
        }
    }
}

fn load(name: Option<OsString>) -> io::Result<Vec<u8>> {
    let Some(name) = name else {
        return Ok(NINE_LEGS.to_vec());
    };
    let mut bytes = Vec::new();
    // With the byte more that shows an overhang.
    File::open(name)?
        .take(SHEET_MOST + 1)
        .read_to_end(&mut bytes)?;
    Ok(bytes)
}

fn prune(sheet: &[u8], out: &mut impl Write, struck: Option<OsString>) -> io::Result<u8> {
    let mut state = [0; STATE_WORDS];
    let mut text = [0; TEXT_MOST];
    let (mut place, mut steps, mut removed, mut length) = (0, 0, 0, 0);

    // SAFETY, of each call: a pointer goes with the length of its own array, and no two arrays overlap.
    let number = unsafe {
        let (bytes, words) = (sheet.as_ptr(), state.as_mut_ptr());
        loungeegret_open(bytes, sheet.len(), 64, words, state.len(), &mut place)
    };
    if number != TAKEN {
        writeln!(out, "refused {number} at {place}")?;
        return Ok(1);
    }
    // Before the run, which may leave some roads one way only.
    cut(&mut state)?;
    // Sweeps, chain steps and passes; each can also be called by hand. This budget always suffices: the end is stable or none.
    // Short turns with smaller budgets, while the end is open, come to the same.
    let number = unsafe {
        let words = state.as_mut_ptr();
        loungeegret_run(words, state.len(), FULL_BUDGET, &mut steps, &mut removed)
    };
    if number != TAKEN {
        return Err(io::Error::other("the run is refused"));
    }
    let end = WORDS[state[END] as usize];
    writeln!(out, "{end}")?;
    if end == "none" {
        return Ok(3);
    }
    // Stable: no sweep, chain step or pass strikes anything more. A round is not promised, and legs that none drives may be left.
    let number = unsafe {
        let (words, bytes) = (state.as_ptr(), text.as_mut_ptr());
        loungeegret_report(words, state.len(), bytes, text.len(), &mut length)
    };
    if number != TAKEN {
        return Err(io::Error::other("the report is refused"));
    }
    out.write_all(&text[..length])?;
    writeln!(out, "{}", round_line(&state)?)?;
    out.flush()?;
    if let Some(name) = struck {
        fs::write(name, struck_sheet(&state)?)?;
    }
    Ok(0)
}

/// Cut steps until nothing changes. Each is given the must-drive roads that the one before handed back, and the first none: so all
/// rounds count. A network with one-way legs stays as it is.
fn cut(state: &mut [u64]) -> io::Result<()> {
    let mut must = [0; ROWS];
    loop {
        let (given, mut removed) = (must, 0);
        // SAFETY: as above.
        let number = unsafe {
            let (words, roads) = (state.as_mut_ptr(), must.as_mut_ptr());
            loungeegret_cut(words, state.len(), roads, must.len(), &mut removed)
        };
        match number {
            NOT_TWO_WAY => return Ok(()),
            TAKEN if removed == 0 && must == given => return Ok(()),
            TAKEN => {}
            _ => return Err(io::Error::other("the cut step is refused")),
        }
    }
}

/// The first round, as the next station of each station, station 1 first.
fn round_line(state: &[u64]) -> io::Result<String> {
    let mut list = vec![0; state[N] as usize];
    let (mut outcome, mut nodes) = (0, 0);
    // What was struck makes no difference: it is the first round of the opened sheet.
    // SAFETY: as above.
    let number = unsafe {
        let (words, bytes, n) = (state.as_ptr(), list.as_mut_ptr(), list.len());
        let (outcome, nodes) = (&mut outcome, &mut nodes);
        loungeegret_first_round(words, state.len(), NODE_BUDGET, bytes, n, outcome, nodes)
    };
    if number != TAKEN {
        return Err(io::Error::other("the search is refused"));
    }
    Ok(match outcome {
        FOUND => list
            .iter()
            .fold("round".into(), |line, next| format!("{line} {next}")),
        NO_ROUND => "no round".into(),
        _ => format!("round not found within {nodes} nodes"),
    })
}

/// The sheet of what is left.
fn struck_sheet(state: &[u64]) -> io::Result<Vec<u8>> {
    let mut sheet = vec![0; WRITTEN_MOST];
    let mut length = 0;
    // SAFETY: as above.
    let number = unsafe {
        let (words, bytes) = (state.as_ptr(), sheet.as_mut_ptr());
        loungeegret_write(words, state.len(), bytes, sheet.len(), &mut length)
    };
    if number != TAKEN {
        return Err(io::Error::other("the write is refused"));
    }
    sheet.truncate(length);
    Ok(sheet)
}
