//! Random arguments: mostly sound ones, and every kind of unsound one.

use super::call::Call;
use crate::fast;
use crate::filled::Filled;
use crate::gen::{random_round, Xorshift, WIDE_NUMBERS};
use crate::program::PRINT_MOST;
use crate::state::{last_place, End, WorkState};
use crate::written::WRITTEN_MOST;

/// The lines of the full table of 64 stations are shorter.
const LONGEST_TEXT: usize = 16_384;

pub fn good_limit(rng: &mut Xorshift) -> u64 {
    match rng.below(10) {
        0..=4 => 64,
        5..=7 => rng.between(1, 4) as u64,
        _ => rng.between(1, 64) as u64,
    }
}

pub fn bad_limit(rng: &mut Xorshift) -> u64 {
    match rng.below(3) {
        0 => 0,
        1 => 65,
        _ => rng.pick(&WIDE_NUMBERS),
    }
}

/// A call on a state. The known rounds are rounds of its table or of an earlier
/// one.
pub fn call(rng: &mut Xorshift, state: &WorkState, rounds: &[Vec<usize>]) -> Call {
    match rng.below(26) {
        0..=2 => Call::Sweep,
        3..=6 => Call::Chain,
        7..=13 => pass(rng, state),
        14..=17 => run(rng, state),
        18..=20 => list(rng, state, rounds),
        21..=23 => report(rng, state),
        _ => write(rng, state),
    }
}

/// One call of each kind.
pub fn each_call(rng: &mut Xorshift, state: &WorkState, rounds: &[Vec<usize>]) -> [Call; 7] {
    [
        Call::Sweep,
        Call::Chain,
        pass(rng, state),
        run(rng, state),
        list(rng, state, rounds),
        report(rng, state),
        write(rng, state),
    ]
}

/// The stations of a state, or any number of them if it is bad.
fn stations(state: &WorkState) -> usize {
    state.n.clamp(2, 64) as usize
}

fn pass(rng: &mut Xorshift, state: &WorkState) -> Call {
    let seed = match rng.below(20) {
        0 => 0,
        1 => stations(state) as u64 + 1,
        2 => rng.pick(&WIDE_NUMBERS),
        _ => return sound_pass(rng, state),
    };
    Call::Pass { seed }
}

pub fn sound_pass(rng: &mut Xorshift, state: &WorkState) -> Call {
    let seed = rng.between(1, stations(state)) as u64;
    Call::Pass { seed }
}

pub fn run(rng: &mut Xorshift, state: &WorkState) -> Call {
    let budget = match rng.below(10) {
        0 => 0,
        1..=3 => rng.between(1, 3) as u32,
        4..=6 => rng.below(2 * stations(state) + 3) as u32,
        7 => 300_000,
        _ => u32::MAX,
    };
    Call::Run { budget }
}

/// A round, one of the table or any, whole or with a fault.
fn list(rng: &mut Xorshift, state: &WorkState, rounds: &[Vec<usize>]) -> Call {
    let n = stations(state);
    let round = if rounds.is_empty() || rng.percent(20) {
        random_round(rng, n)
    } else {
        rounds[rng.below(rounds.len())].clone()
    };
    let mut numbers: Vec<u8> = round.into_iter().map(|next| next as u8).collect();
    // A refused state may have another number of stations.
    numbers.resize(n, 1);
    match rng.below(10) {
        0..=3 => {}
        // Two circuits instead of one, or a station that follows itself.
        4 | 5 => {
            let (one, other) = (rng.below(n), rng.below(n));
            numbers.swap(one, other);
        }
        6 => numbers[rng.below(n)] = rng.between(1, n) as u8,
        7 => numbers[rng.below(n)] = rng.pick(&[0, n as u8 + 1, 128, 255]),
        8 => numbers = standing_legs(rng, state),
        _ => numbers.resize(rng.pick(&[0, 1, n - 1, n + 1, 300]), 1),
    }
    Call::List { numbers }
}

/// A standing leg from every station that has one, mostly no round.
fn standing_legs(rng: &mut Xorshift, state: &WorkState) -> Vec<u8> {
    let rows = &state.rows[..stations(state)];
    rows.iter()
        .map(|row| {
            let turned = rng.below(64) as u32;
            let first = row.rotate_right(turned).trailing_zeros() + turned;
            (first % 64) as u8 + 1
        })
        .collect()
}

fn report(rng: &mut Xorshift, state: &WorkState) -> Call {
    let length = any_length(rng, text_length(state), report_lengths(state));
    Call::Report { length }
}

fn write(rng: &mut Xorshift, state: &WorkState) -> Call {
    let length = any_length(rng, sheet_length(state), write_lengths(state));
    Call::Write { length }
}

fn any_length(rng: &mut Xorshift, filled: usize, lengths: [usize; 8]) -> usize {
    match rng.below(6) {
        0 => rng.below(2 * filled),
        _ => rng.pick(&lengths),
    }
}

pub fn report_lengths(state: &WorkState) -> [usize; 8] {
    lengths_around(text_length(state), LONGEST_TEXT)
}

pub fn write_lengths(state: &WorkState) -> [usize; 8] {
    lengths_around(sheet_length(state), WRITTEN_MOST)
}

/// Buffers of no byte and of one, of the length that is filled, up to two bytes
/// shorter and longer, and with much room.
fn lengths_around(filled: usize, room: usize) -> [usize; 8] {
    let (shorter, longer) = (filled - 1, filled + 1);
    let much = filled + room;
    [0, 1, shorter - 1, shorter, filled, longer, longer + 1, much]
}

/// A buffer one byte too short for the program's text, one of its length, and the
/// one that always suffices.
pub fn print_lengths(text: &str) -> [usize; 3] {
    [text.len() - 1, text.len(), PRINT_MOST]
}

fn text_length(state: &WorkState) -> usize {
    or_any(fast::report(state, &mut [0; LONGEST_TEXT]))
}

fn sheet_length(state: &WorkState) -> usize {
    or_any(fast::write(state, &mut [0; WRITTEN_MOST]))
}

/// A bad state fills nothing, and any length will do.
fn or_any(filled: Filled) -> usize {
    match filled.length as usize {
        0 => 60,
        length => length,
    }
}

/// Breaks one clause of a good state.
pub fn spoilt(rng: &mut Xorshift, state: &WorkState) -> WorkState {
    let n = state.n as usize;
    let mut spoilt = *state;
    match rng.below(6) {
        0 => spoilt.n = wrong_number(rng, &[0, 1, 65, state.n + (1 << 32)]),
        1 => spoilt.limit = wrong_number(rng, &[0, 65, 64 + (1 << 32)]),
        2 => spoilt.place = wrong_number(rng, &[last_place(state.n) + 1, 66, 1 << 32]),
        3 if n < 64 => spoilt.rows[rng.between(n, 63)] |= 1 << rng.below(n),
        4 if n < 64 => spoilt.rows[rng.below(n)] |= 1 << rng.between(n, 63),
        _ => {
            let own = rng.below(n);
            spoilt.rows[own] |= 1 << own;
        }
    }
    spoilt
}

/// One of the numbers next to the sound ones, or a wide one.
fn wrong_number(rng: &mut Xorshift, near: &[u64]) -> u64 {
    if rng.percent(70) {
        rng.pick(near)
    } else {
        rng.pick(&WIDE_NUMBERS)
    }
}

/// The same table with a low limit, as opened or moved.
pub fn narrow(rng: &mut Xorshift, state: &WorkState) -> WorkState {
    let limit = rng.pick(&[1, 1, 2, 3]);
    let narrow = WorkState { limit, ..*state };
    if rng.percent(50) {
        return narrow;
    }
    moved(rng, &narrow)
}

/// The same table at any place, with any mark and end.
pub fn moved(rng: &mut Xorshift, state: &WorkState) -> WorkState {
    WorkState {
        place: rng.below(last_place(state.n) as usize + 1) as u64,
        mark: rng.percent(50),
        end: rng.pick(&[End::Open, End::Open, End::Stable, End::None]),
        ..*state
    }
}

/// The same table in mid-cycle, open.
pub fn amid(rng: &mut Xorshift, state: &WorkState) -> WorkState {
    let mark = rng.percent(50);
    let lowest = usize::from(!mark);
    WorkState {
        place: rng.between(lowest, last_place(state.n) as usize) as u64,
        mark,
        end: End::Open,
        ..*state
    }
}

/// The same table at any place, with any mark, end and limit.
pub fn elsewhere(rng: &mut Xorshift, state: &WorkState) -> WorkState {
    let limit = good_limit(rng);
    WorkState {
        limit,
        ..moved(rng, state)
    }
}

/// One leg more or one less.
pub fn one_leg_off(rng: &mut Xorshift, state: &WorkState) -> WorkState {
    let n = state.n as usize;
    let from = rng.below(n);
    let to = (from + rng.between(1, n - 1)) % n;
    let mut other = *state;
    other.rows[from] ^= 1 << to;
    other
}
