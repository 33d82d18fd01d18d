//! The legs of a table, by the stations they leave and by those they enter.

use super::bits::{bit, indices, transposed};
use crate::state::Rows;

/// Rows and columns, kept side by side.
pub struct Legs {
    pub rows: Rows,
    pub columns: Rows,
}

/// The levels from a seed, and all stations in them.
pub struct Levels {
    words: Rows,
    count: usize,
    pub reached: u64,
}

impl Levels {
    /// All levels; the first has the seed alone.
    #[inline]
    pub fn all(&self) -> &[u64] {
        &self.words[..self.count]
    }

    /// The levels between the first and the last.
    #[inline]
    pub fn inner(&self) -> &[u64] {
        self.words.get(1..self.count - 1).unwrap_or_default()
    }
}

impl Legs {
    pub fn new(rows: &Rows, n: usize) -> Legs {
        Legs {
            rows: *rows,
            columns: transposed(rows, n),
        }
    }

    #[inline]
    pub fn neighbours(&self, i: usize) -> u64 {
        self.rows[i] | self.columns[i]
    }

    pub fn levels(&self, seed: usize) -> Levels {
        let mut words = [0; 64];
        let mut reached = bit(seed);
        let mut level = reached;
        let mut count = 0;
        while level != 0 {
            words[count] = level;
            count += 1;
            let mut next = 0;
            for i in indices(level) {
                next |= self.neighbours(i);
            }
            level = next & !reached;
            reached |= level;
        }
        Levels {
            words,
            count,
            reached,
        }
    }

    #[inline]
    pub fn strike(&mut self, i: usize, gone: u64) {
        self.rows[i] &= !gone;
        for j in indices(gone) {
            self.columns[j] &= !bit(i);
        }
    }
}
