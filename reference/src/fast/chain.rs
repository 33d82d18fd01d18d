//! The chain step: compulsory legs are joined to chains one by one.

use super::bits::{bit, indices, is_single, lowest};
use super::Outcome;

/// The chains of compulsory legs that cover fewer than all stations and can't be
/// lengthened: their first stations, and for each of these the last one.
pub struct Chains {
    pub firsts: u64,
    pub last: [u8; 64],
}

impl Chains {
    /// The chains of a table, or nothing for the verdict none.
    pub fn of(rows: &[u64]) -> Option<Chains> {
        let once = entered_once(rows);
        let mut joined = Joined::new();
        for (i, &row) in rows.iter().enumerate() {
            let compulsory = compulsory_legs(row, once);
            if compulsory == 0 {
                continue;
            }
            if !is_single(compulsory) || joined.targets & compulsory != 0 {
                return None;
            }
            joined.join(i, lowest(compulsory), rows.len())?;
        }
        Some(joined.chains(rows.len()))
    }

    /// Strikes the legs that close the chains and says how many stood.
    #[inline]
    pub fn strike(&self, rows: &mut [u64]) -> u64 {
        let mut removed = 0;
        for first in indices(self.firsts) {
            let row = &mut rows[usize::from(self.last[first])];
            removed += *row >> first & 1;
            *row &= !bit(first);
        }
        removed
    }
}

/// The chain step by hand.
pub fn chain_rows(rows: &mut [u64]) -> Outcome {
    match Chains::of(rows) {
        Some(chains) => Outcome {
            removed: chains.strike(rows),
            none: false,
        },
        None => Outcome::NONE,
    }
}

/// The stations with a single leg in.
#[inline]
fn entered_once(rows: &[u64]) -> u64 {
    let (mut entered, mut again) = (0, 0);
    for row in rows {
        again |= entered & row;
        entered |= row;
    }
    entered & !again
}

/// The compulsory legs of one row: all of a single one, else those to stations
/// with no other leg in.
#[inline]
fn compulsory_legs(row: u64, once: u64) -> u64 {
    if row & row.wrapping_sub(1) == 0 {
        row
    } else {
        row & once
    }
}

/// Legs joined so far. First and last station hold only of the ends of a chain;
/// a station without a leg is a chain of its own.
struct Joined {
    /// Stations with a leg out and with a leg in.
    sources: u64,
    targets: u64,
    first: [u8; 64],
    last: [u8; 64],
    /// The stations of a chain, kept at its first one.
    length: [u8; 64],
}

impl Joined {
    #[inline]
    fn new() -> Joined {
        let alone = std::array::from_fn(|i| i as u8);
        Joined {
            sources: 0,
            targets: 0,
            first: alone,
            last: alone,
            length: [1; 64],
        }
    }

    /// Joins the chain that ends at i to the one that starts at j, or nothing if
    /// that closes a loop over fewer than all stations.
    #[inline]
    fn join(&mut self, i: usize, j: usize, n: usize) -> Option<()> {
        self.sources |= bit(i);
        self.targets |= bit(j);
        let (first, last) = (self.first[i], self.last[j]);
        let (front, back) = (usize::from(first), usize::from(last));
        if front == j {
            return (usize::from(self.length[front]) == n).then_some(());
        }
        self.length[front] += self.length[j];
        self.first[back] = first;
        self.last[front] = last;
        Some(())
    }

    /// The chains that are left over when all legs are joined.
    #[inline]
    fn chains(&self, n: usize) -> Chains {
        let mut firsts = self.sources & !self.targets;
        // A chain over all stations is the only one.
        if firsts != 0 && usize::from(self.length[lowest(firsts)]) == n {
            firsts = 0;
        }
        Chains {
            firsts,
            last: self.last,
        }
    }
}
