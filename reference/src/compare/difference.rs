//! A difference as it is told: the sheet, the way to the call, the answers.

use std::fmt;

use super::call::Call;
use crate::state::WorkState;

/// One step of the way: a call, or a state that was put in by hand.
#[derive(Clone, Debug)]
pub enum Step {
    Call(Call),
    Put(Box<WorkState>),
}

#[derive(Debug)]
pub struct Difference {
    pub sheet: Vec<u8>,
    pub steps: Vec<Step>,
    /// What is wrong with the last step.
    pub reason: &'static str,
    /// Who answered the last step, and what.
    pub answers: Vec<(&'static str, String)>,
}

impl fmt::Display for Difference {
    fn fmt(&self, out: &mut fmt::Formatter) -> fmt::Result {
        write!(out, "sheet:")?;
        for byte in &self.sheet {
            write!(out, " {byte:02x}")?;
        }
        writeln!(out, "\ncalls:")?;
        for step in &self.steps {
            match step {
                Step::Call(call) => writeln!(out, "  {call}")?,
                Step::Put(state) => writeln!(out, "  go on from the state {state}")?,
            }
        }
        writeln!(out, "{}; the last call is answered by", self.reason)?;
        for (who, answer) in &self.answers {
            writeln!(out, "  {who}: {answer}")?;
        }
        Ok(())
    }
}
