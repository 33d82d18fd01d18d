//! Words as sets of stations: station k is bit k−1.

use crate::state::Rows;

/// All stations of a table of n, n from 1 to 64.
#[inline]
pub fn all_stations(n: usize) -> u64 {
    u64::MAX >> (64 - n)
}

#[inline]
pub fn bit(index: usize) -> u64 {
    1 << index
}

/// For a word that is not zero: does it hold just one station?
#[inline]
pub fn is_single(word: u64) -> bool {
    word & (word - 1) == 0
}

/// The lowest index in a word that is not zero. The mask changes nothing; it
/// spares the bounds check on arrays of 64.
#[inline]
pub fn lowest(word: u64) -> usize {
    word.trailing_zeros() as usize & 63
}

/// The stations of `own` that have a different one in `other`.
#[inline]
pub fn without_lone(own: u64, other: u64) -> u64 {
    if other == 0 {
        0
    } else if is_single(other) {
        own & !other
    } else {
        own
    }
}

/// The lowest station of a word that is not zero, as a set.
#[inline]
pub fn lowest_bit(word: u64) -> u64 {
    word & word.wrapping_neg()
}

#[inline]
pub fn indices(mut word: u64) -> impl Iterator<Item = usize> {
    std::iter::from_fn(move || {
        if word == 0 {
            return None;
        }
        let index = lowest(word);
        word &= word - 1;
        Some(index)
    })
}

/// Swaps rows and columns of the first n stations, block by block.
pub fn transposed(rows: &Rows, n: usize) -> Rows {
    let mut columns = *rows;
    let width = n.next_power_of_two();
    let mut half = width / 2;
    while half > 0 {
        // Runs of `half` ones and `half` zeros, ones first.
        let mask = u64::MAX / (bit(half) + 1);
        for block in (0..width).step_by(2 * half) {
            let (low, high) = columns[block..block + 2 * half].split_at_mut(half);
            for (upper, lower) in low.iter_mut().zip(high) {
                let swap = (*upper >> half ^ *lower) & mask;
                *upper ^= swap << half;
                *lower ^= swap;
            }
        }
        half /= 2;
    }
    columns
}
