//! Binary scripts of calls, and the text that an implementation answers them
//! with.
//!
//! A script is a row of commands: an opcode byte, then its arguments, integers
//! little-endian.
//!
//! | Opcode | Arguments |
//! |---|---|
//! | `O` open | limit u64, length u16, sheet bytes |
//! | `W` work state | n, limit, place u64, mark u8, end u8, row count u8, at most 64, rows u64 |
//! | `A` again | the last `O` or `W` once more |
//! | `S` sweep | |
//! | `C` chain step | |
//! | `P` pass | seed u64 |
//! | `V` preview | the command of a sweep, a chain step or a pass |
//! | `K` cut step | row count u8, at most 64, rows u64 of the must-drive table |
//! | `R` run | budget u32 |
//! | `L` list check | length u16, numbers one byte each |
//! | `T` report | buffer length u16, at most 16,384 |
//! | `B` write | buffer length u16, at most 640 |
//! | `F` first round | node budget u32, list length u8 |
//!
//! The calls work on one current state, at first the blank one. The rows of a work state
//! and of a must-drive table beyond the row count are empty. A preview is answered by the end
//! that would follow, the legs that would go and the state that it hands back; the current
//! state stays. A cut step is also answered by the must-drive table that it hands back. A
//! report and a write are answered by their whole buffer, a search for the first round by its
//! whole list; a list and the buffer of a write are in hexadecimal.

use std::io::{self, Write};

use crate::calls::Calls;
use crate::preview::HandStep;
use crate::state::{leg_count, rows_text, End, Rows, WorkState};

pub const LONGEST_REPORT: u16 = 16_384;
pub const LONGEST_WRITE: u16 = 640;

/// What a buffer or a list holds before the call.
pub const FILLER: u8 = b'.';

/// A script under construction.
#[derive(Default)]
pub struct Script {
    bytes: Vec<u8>,
    /// The last command that made a state.
    made: Vec<u8>,
}

impl Script {
    pub fn bytes(&self) -> &[u8] {
        &self.bytes
    }

    pub fn open(&mut self, limit: u64, sheet: &[u8]) {
        self.make([&[b'O'][..], &limit.to_le_bytes(), &counted(sheet)].concat());
    }

    pub fn work(&mut self, state: &WorkState) {
        let end = match state.end {
            End::Open => 0,
            End::Stable => 1,
            End::None => 2,
        };
        let mut command = vec![b'W'];
        for word in [state.n, state.limit, state.place] {
            command.extend(word.to_le_bytes());
        }
        command.extend([u8::from(state.mark), end]);
        command.extend(counted_rows(&state.rows));
        self.make(command);
    }

    /// A command that makes a state; where it is the last such command once more, one byte
    /// says so.
    fn make(&mut self, command: Vec<u8>) {
        if command == self.made {
            self.bytes.push(b'A');
        } else {
            self.bytes.extend(&command);
            self.made = command;
        }
    }

    pub fn sweep(&mut self) {
        self.bytes.push(b'S');
    }

    pub fn chain(&mut self) {
        self.bytes.push(b'C');
    }

    pub fn pass(&mut self, seed: u64) {
        self.bytes.push(b'P');
        self.bytes.extend(seed.to_le_bytes());
    }

    pub fn by_hand(&mut self, step: HandStep) {
        match step {
            HandStep::Sweep => self.sweep(),
            HandStep::Chain => self.chain(),
            HandStep::Pass(seed) => self.pass(seed),
        }
    }

    pub fn preview(&mut self, step: HandStep) {
        self.bytes.push(b'V');
        self.by_hand(step);
    }

    pub fn cut(&mut self, must: &Rows) {
        self.bytes.push(b'K');
        self.bytes.extend(counted_rows(must));
    }

    pub fn run(&mut self, budget: u32) {
        self.bytes.push(b'R');
        self.bytes.extend(budget.to_le_bytes());
    }

    pub fn list(&mut self, numbers: &[u8]) {
        self.bytes.push(b'L');
        self.bytes.extend(counted(numbers));
    }

    pub fn report(&mut self, length: usize) {
        self.buffered(b'T', length, LONGEST_REPORT);
    }

    pub fn write(&mut self, length: usize) {
        self.buffered(b'B', length, LONGEST_WRITE);
    }

    pub fn first_round(&mut self, budget: u32, length: u8) {
        self.bytes.push(b'F');
        self.bytes.extend(budget.to_le_bytes());
        self.bytes.push(length);
    }

    fn buffered(&mut self, opcode: u8, length: usize, longest: u16) {
        let length = u16::try_from(length).expect("at most 65,535 bytes");
        assert!(length <= longest);
        self.bytes.push(opcode);
        self.bytes.extend(length.to_le_bytes());
    }
}

/// Bytes after their number.
fn counted(bytes: &[u8]) -> Vec<u8> {
    let length = u16::try_from(bytes.len()).expect("at most 65,535 bytes");
    [&length.to_le_bytes(), bytes].concat()
}

/// The rows up to the last that is not empty, after their number.
fn counted_rows(rows: &Rows) -> Vec<u8> {
    let last = rows.iter().rposition(|&row| row != 0);
    let rows = &rows[..last.map_or(0, |last| last + 1)];
    let mut bytes = vec![rows.len() as u8];
    bytes.extend(rows.iter().flat_map(|row| row.to_le_bytes()));
    bytes
}

enum Command<'a> {
    Open { limit: u64, sheet: &'a [u8] },
    Work(Box<WorkState>),
    Sweep,
    Chain,
    Pass { seed: u64 },
    Preview(HandStep),
    Cut { must: Box<Rows> },
    Run { budget: u32 },
    List { numbers: &'a [u8] },
    Report { length: usize },
    Write { length: usize },
    FirstRound { budget: u32, length: u8 },
}

/// The part of a script that has not been read yet.
struct Reader<'a> {
    rest: &'a [u8],
    /// The script from the last command on that made a state; at first nothing.
    made: &'a [u8],
}

impl<'a> Reader<'a> {
    fn new(script: &'a [u8]) -> Reader<'a> {
        Reader {
            rest: script,
            made: &[],
        }
    }

    /// The next command, or nothing if it is unknown or cut.
    fn command(&mut self) -> Option<Command<'a>> {
        match self.rest.first()? {
            b'O' | b'W' => self.made = self.rest,
            b'A' => {
                self.byte()?;
                return Reader::new(self.made).written_out();
            }
            _ => {}
        }
        self.written_out()
    }

    /// The next command if all of it stands here.
    fn written_out(&mut self) -> Option<Command<'a>> {
        Some(match self.byte()? {
            b'O' => Command::Open {
                limit: self.word()?,
                sheet: self.counted()?,
            },
            b'W' => Command::Work(Box::new(self.state()?)),
            b'S' => Command::Sweep,
            b'C' => Command::Chain,
            b'P' => Command::Pass { seed: self.word()? },
            b'V' => Command::Preview(self.hand_step()?),
            b'K' => Command::Cut {
                must: Box::new(self.rows()?),
            },
            b'R' => Command::Run {
                budget: u32::from_le_bytes(self.array()?),
            },
            b'L' => Command::List {
                numbers: self.counted()?,
            },
            b'T' => Command::Report {
                length: self.buffer_length(LONGEST_REPORT)?,
            },
            b'B' => Command::Write {
                length: self.buffer_length(LONGEST_WRITE)?,
            },
            b'F' => Command::FirstRound {
                budget: u32::from_le_bytes(self.array()?),
                length: self.byte()?,
            },
            _ => return None,
        })
    }

    /// The command of a step that can be previewed.
    fn hand_step(&mut self) -> Option<HandStep> {
        match self.byte()? {
            b'S' => Some(HandStep::Sweep),
            b'C' => Some(HandStep::Chain),
            b'P' => self.word().map(HandStep::Pass),
            _ => None,
        }
    }

    fn state(&mut self) -> Option<WorkState> {
        Some(WorkState {
            n: self.word()?,
            limit: self.word()?,
            place: self.word()?,
            mark: match self.byte()? {
                0 => false,
                1 => true,
                _ => return None,
            },
            end: match self.byte()? {
                0 => End::Open,
                1 => End::Stable,
                2 => End::None,
                _ => return None,
            },
            rows: self.rows()?,
        })
    }

    fn rows(&mut self) -> Option<Rows> {
        let mut rows = [0; 64];
        let count = usize::from(self.byte()?);
        for row in rows.get_mut(..count)? {
            *row = self.word()?;
        }
        Some(rows)
    }

    fn buffer_length(&mut self, longest: u16) -> Option<usize> {
        let length = u16::from_le_bytes(self.array()?);
        (length <= longest).then_some(usize::from(length))
    }

    fn counted(&mut self) -> Option<&'a [u8]> {
        let length = u16::from_le_bytes(self.array()?);
        self.take(usize::from(length))
    }

    fn word(&mut self) -> Option<u64> {
        self.array().map(u64::from_le_bytes)
    }

    fn byte(&mut self) -> Option<u8> {
        self.take(1).map(|bytes| bytes[0])
    }

    fn array<const COUNT: usize>(&mut self) -> Option<[u8; COUNT]> {
        self.take(COUNT)?.try_into().ok()
    }

    fn take(&mut self, count: usize) -> Option<&'a [u8]> {
        if self.rest.len() < count {
            return None;
        }
        let (taken, rest) = self.rest.split_at(count);
        self.rest = rest;
        Some(taken)
    }
}

/// Answers a script command by command; at an unknown or cut one it writes
/// `stop` and ends.
pub fn play(calls: &impl Calls, script: &[u8], out: &mut impl Write) -> io::Result<()> {
    let mut reader = Reader::new(script);
    let mut state = WorkState::BLANK;
    while !reader.rest.is_empty() {
        match reader.command() {
            Some(command) => answer(calls, command, &mut state, out)?,
            None => return writeln!(out, "stop"),
        }
    }
    Ok(())
}

fn answer(
    calls: &impl Calls,
    command: Command,
    state: &mut WorkState,
    out: &mut impl Write,
) -> io::Result<()> {
    match command {
        Command::Open { limit, sheet } => {
            let opened = calls.open(sheet, limit);
            *state = opened.state;
            writeln!(out, "open {} at {}", opened.number, opened.place)?;
        }
        Command::Work(given) => {
            *state = *given;
            writeln!(out, "work")?;
        }
        Command::Sweep => {
            let swept = calls.sweep(*state);
            *state = swept.state;
            writeln!(out, "sweep {} removed {}", swept.number, swept.removed)?;
        }
        Command::Chain => {
            let chained = calls.chain(*state);
            *state = chained.state;
            writeln!(out, "chain {} removed {}", chained.number, chained.removed)?;
        }
        Command::Pass { seed } => {
            let passed = calls.pass(*state, seed);
            *state = passed.state;
            writeln!(out, "pass {} removed {}", passed.number, passed.removed)?;
        }
        Command::Preview(step) => {
            let preview = calls.preview(*state, step);
            let (number, end) = (preview.number, preview.end.word());
            let (count, rows) = (leg_count(&preview.legs), rows_text(&preview.legs));
            writeln!(out, "preview {number} end {end} legs {count}{rows}")?;
            return writeln!(out, "state {}", preview.state);
        }
        Command::Cut { must } => {
            let cut = calls.cut(*state, &must);
            *state = cut.state;
            writeln!(out, "cut {} removed {}", cut.number, cut.removed)?;
            writeln!(out, "state {state}")?;
            return writeln!(out, "must{}", rows_text(&cut.must));
        }
        Command::Run { budget } => {
            let ran = calls.run(*state, budget);
            *state = ran.state;
            let (number, steps, removed) = (ran.number, ran.steps, ran.removed);
            writeln!(out, "run {number} steps {steps} removed {removed}")?;
        }
        // These leave the state as it is, so no state line follows.
        Command::List { numbers } => {
            let checked = calls.list_check(state, numbers);
            let word = if checked.yes { "yes" } else { "no" };
            return writeln!(out, "list {} {}", checked.number, word);
        }
        Command::Report { length } => {
            let mut buffer = vec![FILLER; length];
            let reported = calls.report(state, &mut buffer);
            let (number, length) = (reported.number, reported.length);
            writeln!(out, "report {number} length {length}")?;
            out.write_all(&buffer)?;
            return writeln!(out);
        }
        Command::Write { length } => {
            let mut buffer = vec![FILLER; length];
            let written = calls.write(state, &mut buffer);
            let (number, length) = (written.number, written.length);
            writeln!(out, "write {number} length {length}")?;
            return digits(out, &buffer);
        }
        Command::FirstRound { budget, length } => {
            let mut list = vec![FILLER; usize::from(length)];
            let sought = calls.first_round(state, budget, &mut list);
            let (number, outcome, nodes) = (sought.number, sought.outcome.code(), sought.nodes);
            writeln!(out, "first {number} outcome {outcome} nodes {nodes}")?;
            return digits(out, &list);
        }
    }
    writeln!(out, "state {state}")
}

/// A line of two hexadecimal digits a byte.
fn digits(out: &mut impl Write, bytes: &[u8]) -> io::Result<()> {
    for byte in bytes {
        write!(out, "{byte:02x}")?;
    }
    writeln!(out)
}
