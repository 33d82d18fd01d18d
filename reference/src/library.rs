//! The proved library, called over its C interface.

use crate::calls::Calls;
use crate::card::{self, Number};
use crate::cut::Cut;
use crate::filled::Filled;
use crate::finder::{Outcome, Sought};
use crate::hand::Handled;
use crate::list::Checked;
use crate::preview::{HandStep, Preview};
use crate::run::Ran;
use crate::sheet::Opened;
use crate::state::{Rows, WorkState};
use crate::words::{end_of, from_words, to_words, Words, STATE_WORDS};

/// What a call answers when the words lent to it are too few for a state, for a must-drive
/// table or for the legs of a preview.
pub const NO_STATE: u32 = 100;

// Limits and seeds reach the library as `usize`, and none may be cut short.
const _: () = assert!(usize::BITS == u64::BITS);

/// The functions of the archives. A slice is passed as pointer and length, an
/// array as pointer.
mod ffi {
    extern "C" {
        pub fn loungeegret_open(
            sheet: *const u8,
            sheet_len: usize,
            limit: usize,
            state: *mut u64,
            state_len: usize,
            place: *mut usize,
        ) -> u32;
        pub fn loungeegret_sweep(state: *mut u64, state_len: usize, removed: *mut u32) -> u32;
        pub fn loungeegret_chain(state: *mut u64, state_len: usize, removed: *mut u32) -> u32;
        pub fn loungeegret_pass(
            state: *mut u64,
            state_len: usize,
            seed: usize,
            removed: *mut u32,
        ) -> u32;
        pub fn loungeegret_preview_sweep(
            state: *const u64,
            state_len: usize,
            legs: *mut u64,
            legs_len: usize,
            end: *mut u64,
        ) -> u32;
        pub fn loungeegret_preview_chain(
            state: *const u64,
            state_len: usize,
            legs: *mut u64,
            legs_len: usize,
            end: *mut u64,
        ) -> u32;
        pub fn loungeegret_preview_pass(
            state: *const u64,
            state_len: usize,
            seed: usize,
            legs: *mut u64,
            legs_len: usize,
            end: *mut u64,
        ) -> u32;
        pub fn loungeegret_cut(
            state: *mut u64,
            state_len: usize,
            must: *mut u64,
            must_len: usize,
            removed: *mut u32,
        ) -> u32;
        pub fn loungeegret_run(
            state: *mut u64,
            state_len: usize,
            budget: u32,
            steps: *mut u32,
            removed: *mut u32,
        ) -> u32;
        pub fn loungeegret_check_list(
            state: *const u64,
            state_len: usize,
            list: *const u8,
            list_len: usize,
            yes: *mut u8,
        ) -> u32;
        pub fn loungeegret_first_round(
            state: *const u64,
            state_len: usize,
            budget: u32,
            list: *mut u8,
            list_len: usize,
            outcome: *mut u32,
            nodes: *mut u32,
        ) -> u32;
        pub fn loungeegret_report(
            state: *const u64,
            state_len: usize,
            buf: *mut u8,
            buf_len: usize,
            length: *mut usize,
        ) -> u32;
        pub fn loungeegret_write(
            state: *const u64,
            state_len: usize,
            buf: *mut u8,
            buf_len: usize,
            length: *mut usize,
        ) -> u32;
        pub fn loungeegret_print(
            sheet: *const u8,
            sheet_len: usize,
            buf: *mut u8,
            buf_len: usize,
            length: *mut usize,
        ) -> u32;
        pub fn measured_components(nbr: *const u64, outside: u64, part: *mut u64) -> usize;
    }
}

/// The same functions over slices. The words of a state may be any and of any
/// number.
pub mod raw {
    use super::{ffi, HandStep};

    // SAFETY of every call here: each pointer comes from a reference that lives
    // as long as the call, with the length of its own slice, and what the
    // library writes is borrowed mutably.

    pub fn open(sheet: &[u8], limit: usize, state: &mut [u64], place: &mut usize) -> u32 {
        let (bytes, words) = (sheet.as_ptr(), state.as_mut_ptr());
        unsafe { ffi::loungeegret_open(bytes, sheet.len(), limit, words, state.len(), place) }
    }

    pub fn sweep(state: &mut [u64], removed: &mut u32) -> u32 {
        unsafe { ffi::loungeegret_sweep(state.as_mut_ptr(), state.len(), removed) }
    }

    pub fn chain(state: &mut [u64], removed: &mut u32) -> u32 {
        unsafe { ffi::loungeegret_chain(state.as_mut_ptr(), state.len(), removed) }
    }

    pub fn pass(state: &mut [u64], seed: usize, removed: &mut u32) -> u32 {
        unsafe { ffi::loungeegret_pass(state.as_mut_ptr(), state.len(), seed, removed) }
    }

    pub fn preview_sweep(state: &[u64], legs: &mut [u64], end: &mut u64) -> u32 {
        let (words, length) = (state.as_ptr(), state.len());
        unsafe { ffi::loungeegret_preview_sweep(words, length, legs.as_mut_ptr(), legs.len(), end) }
    }

    pub fn preview_chain(state: &[u64], legs: &mut [u64], end: &mut u64) -> u32 {
        let (words, length) = (state.as_ptr(), state.len());
        unsafe { ffi::loungeegret_preview_chain(words, length, legs.as_mut_ptr(), legs.len(), end) }
    }

    pub fn preview_pass(state: &[u64], seed: usize, legs: &mut [u64], end: &mut u64) -> u32 {
        let (words, length) = (state.as_ptr(), state.len());
        let (table, count) = (legs.as_mut_ptr(), legs.len());
        unsafe { ffi::loungeegret_preview_pass(words, length, seed, table, count, end) }
    }

    /// The preview of any step.
    pub fn preview(state: &[u64], step: HandStep, legs: &mut [u64], end: &mut u64) -> u32 {
        match step {
            HandStep::Sweep => preview_sweep(state, legs, end),
            HandStep::Chain => preview_chain(state, legs, end),
            HandStep::Pass(seed) => preview_pass(state, seed as usize, legs, end),
        }
    }

    /// The step itself.
    pub fn by_hand(state: &mut [u64], step: HandStep, removed: &mut u32) -> u32 {
        match step {
            HandStep::Sweep => sweep(state, removed),
            HandStep::Chain => chain(state, removed),
            HandStep::Pass(seed) => pass(state, seed as usize, removed),
        }
    }

    pub fn cut(state: &mut [u64], must: &mut [u64], removed: &mut u32) -> u32 {
        let (words, length) = (state.as_mut_ptr(), state.len());
        unsafe { ffi::loungeegret_cut(words, length, must.as_mut_ptr(), must.len(), removed) }
    }

    pub fn run(state: &mut [u64], budget: u32, steps: &mut u32, removed: &mut u32) -> u32 {
        unsafe { ffi::loungeegret_run(state.as_mut_ptr(), state.len(), budget, steps, removed) }
    }

    pub fn check_list(state: &[u64], list: &[u8], yes: &mut u8) -> u32 {
        let (words, numbers) = (state.as_ptr(), list.as_ptr());
        unsafe { ffi::loungeegret_check_list(words, state.len(), numbers, list.len(), yes) }
    }

    pub fn first_round(
        state: &[u64],
        budget: u32,
        list: &mut [u8],
        outcome: &mut u32,
        nodes: &mut u32,
    ) -> u32 {
        let (words, length) = (state.as_ptr(), state.len());
        let (numbers, count) = (list.as_mut_ptr(), list.len());
        unsafe {
            ffi::loungeegret_first_round(words, length, budget, numbers, count, outcome, nodes)
        }
    }

    pub fn report(state: &[u64], buffer: &mut [u8], length: &mut usize) -> u32 {
        let (words, bytes) = (state.as_ptr(), buffer.as_mut_ptr());
        unsafe { ffi::loungeegret_report(words, state.len(), bytes, buffer.len(), length) }
    }

    pub fn write(state: &[u64], buffer: &mut [u8], length: &mut usize) -> u32 {
        let (words, bytes) = (state.as_ptr(), buffer.as_mut_ptr());
        unsafe { ffi::loungeegret_write(words, state.len(), bytes, buffer.len(), length) }
    }

    pub fn print(sheet: &[u8], buffer: &mut [u8], length: &mut usize) -> u32 {
        let (bytes, text) = (sheet.as_ptr(), buffer.as_mut_ptr());
        unsafe { ffi::loungeegret_print(bytes, sheet.len(), text, buffer.len(), length) }
    }
}

/// A function from inside the proved library, to be measured by itself.
pub mod measured {
    use super::ffi;

    /// The connected groups of the stations of `outside`, by rising lowest
    /// station: they come first in `part`, whose other words get 0, and their
    /// number is answered. Word i of `nbr` has the neighbours of the station of
    /// bit i; if the words are not mutual, nothing is said but that the call ends.
    #[inline]
    pub fn components(nbr: &[u64; 64], outside: u64, part: &mut [u64; 64]) -> usize {
        // SAFETY: both arrays have the 64 words that the library reads or writes
        // and live as long as the call; the one written is borrowed mutably.
        unsafe { ffi::measured_components(nbr.as_ptr(), outside, part.as_mut_ptr()) }
    }
}

/// The calls of the proved library. What a call has to write holds a value
/// before that no call gives, so that an answer left unwritten shows.
pub struct Library;

impl Calls for Library {
    fn open(&self, sheet: &[u8], limit: u64) -> Opened {
        let mut words = [u64::MAX; STATE_WORDS];
        let mut place = usize::MAX;
        let answer = raw::open(sheet, limit as usize, &mut words, &mut place);
        Opened {
            number: number(answer),
            place: place as u64,
            state: handed_back(&words),
        }
    }

    fn sweep(&self, state: WorkState) -> Handled {
        by_hand(&state, raw::sweep)
    }

    fn chain(&self, state: WorkState) -> Handled {
        by_hand(&state, raw::chain)
    }

    fn pass(&self, state: WorkState, seed: u64) -> Handled {
        by_hand(&state, |words, removed| {
            raw::pass(words, seed as usize, removed)
        })
    }

    fn preview(&self, state: WorkState, step: HandStep) -> Preview {
        let words = to_words(&state);
        let (mut legs, mut end) = ([u64::MAX; 64], u64::MAX);
        let answer = raw::preview(&words, step, &mut legs, &mut end);
        assert_eq!(words, to_words(&state), "a preview changes no state");
        Preview {
            number: number(answer),
            legs,
            end: end_of(end).expect("an end of 0 to 2"),
            state: handed_back(&words),
        }
    }

    fn cut(&self, state: WorkState, must: &Rows) -> Cut {
        let mut after = *must;
        let handled = by_hand(&state, |words, removed| {
            raw::cut(words, &mut after, removed)
        });
        Cut {
            number: handled.number,
            state: handled.state,
            must: after,
            removed: handled.removed,
        }
    }

    fn run(&self, state: WorkState, budget: u32) -> Ran {
        let mut words = to_words(&state);
        let (mut steps, mut removed) = (u32::MAX, u32::MAX);
        let answer = raw::run(&mut words, budget, &mut steps, &mut removed);
        Ran {
            number: number(answer),
            state: handed_back(&words),
            steps,
            removed: u64::from(removed),
        }
    }

    fn list_check(&self, state: &WorkState, numbers: &[u8]) -> Checked {
        let mut yes = u8::MAX;
        let answer = raw::check_list(&to_words(state), numbers, &mut yes);
        Checked {
            number: number(answer),
            yes: truth(yes),
        }
    }

    fn first_round(&self, state: &WorkState, budget: u32, list: &mut [u8]) -> Sought {
        let words = to_words(state);
        let (mut code, mut nodes) = (u32::MAX, u32::MAX);
        let answer = raw::first_round(&words, budget, list, &mut code, &mut nodes);
        assert_eq!(words, to_words(state), "a search changes no state");
        Sought {
            number: number(answer),
            outcome: outcome(code),
            nodes,
        }
    }

    fn report(&self, state: &WorkState, buffer: &mut [u8]) -> Filled {
        filled(|length| raw::report(&to_words(state), buffer, length))
    }

    fn write(&self, state: &WorkState, buffer: &mut [u8]) -> Filled {
        filled(|length| raw::write(&to_words(state), buffer, length))
    }

    fn print(&self, sheet: &[u8], buffer: &mut [u8]) -> Filled {
        filled(|length| raw::print(sheet, buffer, length))
    }

    /// The library has no call of its own for this; a sweep is refused just on
    /// a bad state.
    fn bad(&self, state: &WorkState) -> bool {
        self.sweep(*state).number == card::BAD_WORK_STATE
    }
}

fn by_hand(state: &WorkState, call: impl FnOnce(&mut [u64], &mut u32) -> u32) -> Handled {
    let mut words = to_words(state);
    let mut removed = u32::MAX;
    let answer = call(&mut words, &mut removed);
    Handled {
        number: number(answer),
        state: handed_back(&words),
        removed: u64::from(removed),
    }
}

fn filled(call: impl FnOnce(&mut usize) -> u32) -> Filled {
    let mut length = usize::MAX;
    let answer = call(&mut length);
    Filled {
        number: number(answer),
        length: length as u64,
    }
}

fn number(answer: u32) -> Number {
    assert!(
        answer != NO_STATE,
        "a state of {STATE_WORDS} words is whole"
    );
    Number::try_from(answer).expect("a number of the radio card")
}

fn handed_back(words: &Words) -> WorkState {
    from_words(words).expect("a mark of 0 or 1 and an end of 0 to 2")
}

fn outcome(code: u32) -> Outcome {
    let mut outcomes = Outcome::ALL.into_iter();
    let found = outcomes.find(|outcome| outcome.code() == code);
    found.expect("an outcome of 0 to 3")
}

fn truth(yes: u8) -> bool {
    assert!(yes <= 1, "yes is 1 and no is 0");
    yes == 1
}

#[cfg(test)]
mod tests;
