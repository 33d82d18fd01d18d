//! One call as a value, and its complete answer.

use std::fmt;

use crate::calls::Calls;
use crate::card::Number;
use crate::cut::Cut;
use crate::filled::{fill, Filled};
use crate::finder::Sought;
use crate::hand::Handled;
use crate::list::Checked;
use crate::preview::{HandStep, Preview};
use crate::run::Ran;
use crate::sheet::Opened;
use crate::state::{rows_text, Rows, WorkState};

#[derive(Clone, Debug)]
pub enum Call {
    Open { limit: u64 },
    OpenWritten { limit: u64, sheet: Vec<u8> },
    Sweep,
    Chain,
    Pass { seed: u64 },
    Preview { step: HandStep },
    Cut { must: Box<Rows> },
    Run { budget: u32 },
    List { numbers: Vec<u8> },
    FirstRound { budget: u32, length: usize },
    Report { length: usize },
    Write { length: usize },
    Print { length: usize },
}

/// All that a call hands back or writes.
#[derive(Clone, Debug, PartialEq, Eq)]
pub enum Answer {
    Opened(Opened),
    Handled(Handled),
    Preview(Box<Preview>),
    Cut(Box<Cut>),
    Ran(Ran),
    Checked(Checked),
    Sought(Sought, Vec<u8>),
    Filled(Filled, Vec<u8>),
}

impl Call {
    /// Makes the call on a state; an opening and a print take a sheet instead.
    pub fn make(&self, calls: &dyn Calls, sheet: &[u8], state: &WorkState) -> Answer {
        match self {
            Call::Open { limit } => Answer::Opened(calls.open(sheet, *limit)),
            Call::OpenWritten { limit, sheet } => Answer::Opened(calls.open(sheet, *limit)),
            Call::Sweep => Answer::Handled(calls.sweep(*state)),
            Call::Chain => Answer::Handled(calls.chain(*state)),
            Call::Pass { seed } => Answer::Handled(calls.pass(*state, *seed)),
            Call::Preview { step } => Answer::Preview(Box::new(calls.preview(*state, *step))),
            Call::Cut { must } => Answer::Cut(Box::new(calls.cut(*state, must))),
            Call::Run { budget } => Answer::Ran(calls.run(*state, *budget)),
            Call::List { numbers } => Answer::Checked(calls.list_check(state, numbers)),
            Call::FirstRound { budget, length } => {
                let mut list = lent_buffer(*length);
                let sought = calls.first_round(state, *budget, &mut list);
                Answer::Sought(sought, list)
            }
            Call::Report { length } => {
                Answer::filled(*length, |buffer| calls.report(state, buffer))
            }
            Call::Write { length } => Answer::filled(*length, |buffer| calls.write(state, buffer)),
            Call::Print { length } => Answer::filled(*length, |buffer| calls.print(sheet, buffer)),
        }
    }

    /// The step that a preview of this call would be of.
    pub fn hand_step(&self) -> Option<HandStep> {
        match self {
            Call::Sweep => Some(HandStep::Sweep),
            Call::Chain => Some(HandStep::Chain),
            Call::Pass { seed } => Some(HandStep::Pass(*seed)),
            _ => None,
        }
    }
}

/// Bytes that differ from their neighbours and stand in no text and no list.
pub fn lent_buffer(length: usize) -> Vec<u8> {
    (0..length).map(|at| 128 + (at % 127) as u8).collect()
}

impl Answer {
    fn filled(length: usize, call: impl FnOnce(&mut [u8]) -> Filled) -> Answer {
        let mut buffer = lent_buffer(length);
        let filled = call(&mut buffer);
        Answer::Filled(filled, buffer)
    }

    /// What a print of this text answers.
    pub fn printed(text: &str, length: usize) -> Answer {
        Answer::filled(length, |buffer| fill(text.as_bytes(), buffer))
    }

    /// The bytes of the buffer that are told to be filled.
    pub fn written(&self) -> &[u8] {
        match self {
            Answer::Filled(filled, buffer) => &buffer[..filled.length as usize],
            _ => &[],
        }
    }

    pub fn number(&self) -> Number {
        match self {
            Answer::Opened(opened) => opened.number,
            Answer::Handled(handled) => handled.number,
            Answer::Preview(preview) => preview.number,
            Answer::Cut(cut) => cut.number,
            Answer::Ran(ran) => ran.number,
            Answer::Checked(checked) => checked.number,
            Answer::Sought(sought, _) => sought.number,
            Answer::Filled(filled, _) => filled.number,
        }
    }

    /// The work state handed back, for calls that hand one back.
    pub fn state(&self) -> Option<&WorkState> {
        match self {
            Answer::Opened(opened) => Some(&opened.state),
            Answer::Handled(handled) => Some(&handled.state),
            Answer::Preview(preview) => Some(&preview.state),
            Answer::Cut(cut) => Some(&cut.state),
            Answer::Ran(ran) => Some(&ran.state),
            Answer::Checked(_) | Answer::Sought(..) | Answer::Filled(..) => None,
        }
    }
}

/// A must-drive table; empty rows are left out.
struct Roads<'a>(&'a Rows);

impl fmt::Display for Roads<'_> {
    fn fmt(&self, out: &mut fmt::Formatter) -> fmt::Result {
        write!(out, " must-drive{}", rows_text(self.0))
    }
}

impl fmt::Display for Call {
    fn fmt(&self, out: &mut fmt::Formatter) -> fmt::Result {
        match self {
            Call::Open { limit } => write!(out, "open with limit {limit}"),
            Call::OpenWritten { limit, .. } => {
                write!(out, "open what was written with limit {limit}")
            }
            Call::Sweep => write!(out, "sweep"),
            Call::Chain => write!(out, "chain step"),
            Call::Pass { seed } => write!(out, "pass with seed {seed}"),
            Call::Preview { step } => write!(out, "preview of a {step}"),
            Call::Cut { must } => write!(out, "cut step with{}", Roads(must)),
            Call::Run { budget } => write!(out, "run with budget {budget}"),
            Call::List { numbers } => write!(out, "list check of {numbers:?}"),
            Call::FirstRound { budget, length } => {
                write!(out, "first round by {budget} nodes into {length} bytes")
            }
            Call::Report { length } => write!(out, "report into {length} bytes"),
            Call::Write { length } => write!(out, "write into {length} bytes"),
            Call::Print { length } => write!(out, "print into {length} bytes"),
        }
    }
}

impl fmt::Display for Answer {
    fn fmt(&self, out: &mut fmt::Formatter) -> fmt::Result {
        write!(out, "{}", self.number())?;
        match self {
            Answer::Opened(opened) => write!(out, " at {}", opened.place)?,
            Answer::Handled(handled) => write!(out, " removed {}", handled.removed)?,
            Answer::Preview(preview) => {
                let (end, legs) = (preview.end.word(), rows_text(&preview.legs));
                write!(out, " end {end} legs{legs}")?;
            }
            Answer::Cut(cut) => write!(out, " removed {}{}", cut.removed, Roads(&cut.must))?,
            Answer::Ran(ran) => write!(out, " steps {} removed {}", ran.steps, ran.removed)?,
            Answer::Checked(checked) => write!(out, " yes {}", checked.yes)?,
            Answer::Sought(sought, list) => {
                let (outcome, nodes) = (sought.outcome.word(), sought.nodes);
                write!(out, " {outcome} nodes {nodes} list {list:?}")?;
            }
            Answer::Filled(filled, buffer) => {
                let (length, bytes) = (filled.length, buffer.escape_ascii());
                write!(out, " length {length} buffer \"{bytes}\"")?;
            }
        }
        match self.state() {
            Some(state) => write!(out, " state {state}"),
            None => Ok(()),
        }
    }
}
