//! The work state in words, as the proved library takes it: 64 rows, then n,
//! limit, place, mark (0 clear, 1 set) and end (0 open, 1 stable, 2 none).

use crate::state::{End, WorkState};

pub const STATE_WORDS: usize = 69;

pub type Words = [u64; STATE_WORDS];

pub const N: usize = 64;
pub const LIMIT: usize = 65;
pub const PLACE: usize = 66;
pub const MARK: usize = 67;
pub const END: usize = 68;

#[inline]
pub fn to_words(state: &WorkState) -> Words {
    let mut words = [0; STATE_WORDS];
    words[..N].copy_from_slice(&state.rows);
    words[N] = state.n;
    words[LIMIT] = state.limit;
    words[PLACE] = state.place;
    words[MARK] = u64::from(state.mark);
    words[END] = word_of_end(state.end);
    words
}

#[inline]
pub fn word_of_end(end: End) -> u64 {
    match end {
        End::Open => 0,
        End::Stable => 1,
        End::None => 2,
    }
}

#[inline]
pub fn end_of(word: u64) -> Option<End> {
    match word {
        0 => Some(End::Open),
        1 => Some(End::Stable),
        2 => Some(End::None),
        _ => None,
    }
}

/// Nothing comes back when the words of mark or end stand for no value.
#[inline]
pub fn from_words(words: &Words) -> Option<WorkState> {
    let mut rows = [0; 64];
    rows.copy_from_slice(&words[..N]);
    Some(WorkState {
        n: words[N],
        rows,
        limit: words[LIMIT],
        place: words[PLACE],
        mark: match words[MARK] {
            0 => false,
            1 => true,
            _ => return None,
        },
        end: end_of(words[END])?,
    })
}
