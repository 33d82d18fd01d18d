//! The implementations that are timed, all on a state in lent words.

use std::hint::black_box;
use std::marker::PhantomData;

use reference::fast::{self, Idle, Told, Untold};
use reference::library::raw;
use reference::words::{from_words, to_words, Words};
use reference::written::WRITTEN_MOST;
use reference::WorkState;

use crate::LIMIT;

/// The timed calls of one implementation.
pub trait Side {
    fn open(sheet: &[u8], words: &mut Words);
    fn write(words: &Words, buffer: &mut [u8]);
    fn sweep(words: &mut Words);
    fn chain(words: &mut Words);
    fn pass(words: &mut Words, seed: usize);
    fn run(words: &mut Words);
}

/// The proved library.
pub struct Proved;

impl Side for Proved {
    fn open(sheet: &[u8], words: &mut Words) {
        let mut place = 0;
        black_box(raw::open(sheet, LIMIT, words, &mut place));
        black_box(place);
    }

    fn write(words: &Words, buffer: &mut [u8]) {
        let mut length = 0;
        black_box(raw::write(words, buffer, &mut length));
        black_box(length);
    }

    fn sweep(words: &mut Words) {
        let mut removed = 0;
        black_box(raw::sweep(words, &mut removed));
        black_box(removed);
    }

    fn chain(words: &mut Words) {
        let mut removed = 0;
        black_box(raw::chain(words, &mut removed));
        black_box(removed);
    }

    fn pass(words: &mut Words, seed: usize) {
        let mut removed = 0;
        black_box(raw::pass(words, seed, &mut removed));
        black_box(removed);
    }

    fn run(words: &mut Words) {
        let (mut steps, mut removed) = (0, 0);
        black_box(raw::run(words, u32::MAX, &mut steps, &mut removed));
        black_box((steps, removed));
    }
}

/// The calls in Rust. Each loads the state from the words, and one that changes it
/// stores it back.
pub struct Rust<I>(PhantomData<I>);

/// Passes that change nothing are told as the library tells them.
pub type Same = Rust<Told>;

/// Every pass is worked through.
pub type Plain = Rust<Untold>;

#[inline]
fn load(words: &Words) -> WorkState {
    from_words(words).expect("words of a state")
}

impl<I: Idle> Side for Rust<I> {
    fn open(sheet: &[u8], words: &mut Words) {
        let opened = fast::open(sheet, LIMIT as u64);
        black_box((opened.number, opened.place));
        *words = to_words(&opened.state);
    }

    fn write(words: &Words, buffer: &mut [u8]) {
        let written = fast::write(&load(words), buffer);
        black_box((written.number, written.length));
    }

    fn sweep(words: &mut Words) {
        let swept = fast::sweep(load(words));
        black_box((swept.number, swept.removed));
        *words = to_words(&swept.state);
    }

    fn chain(words: &mut Words) {
        let chained = fast::chain(load(words));
        black_box((chained.number, chained.removed));
        *words = to_words(&chained.state);
    }

    fn pass(words: &mut Words, seed: usize) {
        let passed = fast::pass_by::<I>(load(words), seed as u64);
        black_box((passed.number, passed.removed));
        *words = to_words(&passed.state);
    }

    fn run(words: &mut Words) {
        let ran = fast::run_by::<I>(load(words), u32::MAX);
        black_box((ran.number, ran.steps, ran.removed));
        *words = to_words(&ran.state);
    }
}

/// Times mean something only for the same work.
pub fn assert_same_work(state: &WorkState) {
    assert_eq!(written::<Proved>(state), written::<Plain>(state));
    let stable = stable::<Plain>(state);
    assert_eq!(self::stable::<Proved>(state), stable);
    assert_eq!(self::stable::<Same>(state), stable);
}

fn written<S: Side>(state: &WorkState) -> [u8; WRITTEN_MOST] {
    let mut buffer = [0; WRITTEN_MOST];
    S::write(&to_words(state), &mut buffer);
    buffer
}

fn stable<S: Side>(state: &WorkState) -> Words {
    let mut words = to_words(state);
    S::run(&mut words);
    words
}
