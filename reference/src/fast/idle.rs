//! What is told of passes that change nothing before they are worked through.

use super::bits::bit;
use super::grid::Split;
use super::legs::{Legs, Levels};
use super::pivots::Pivots;

/// What a run or a pass by hand knows of passes that change nothing. By itself it is
/// nothing at all.
pub trait Idle {
    /// Whether anything is told.
    const TELLS: bool;

    fn new() -> Self;

    /// Is the pass from this seed known to change nothing?
    #[inline]
    fn knows(&self, _seed: usize) -> bool {
        false
    }

    /// The pass from this seed has changed nothing.
    #[inline]
    fn learn(&mut self, _seed: usize) {}

    /// Legs have gone.
    #[inline]
    fn forget(&mut self) {}

    /// One-sided: true only if the pass with these levels, which have all stations,
    /// changes nothing. The split is working space.
    #[inline]
    fn tells(&mut self, _: &Legs, _: &mut Split, _: &Levels, _limit: u32) -> bool {
        false
    }
}

/// Every pass is worked through.
pub struct Untold;

impl Idle for Untold {
    const TELLS: bool = false;

    #[inline]
    fn new() -> Untold {
        Untold
    }
}

/// A pass that changed nothing is not looked at again before legs go, and most of
/// the others that change nothing are told by pivots.
pub struct Told {
    /// The seeds of passes known to change nothing.
    known: u64,
    pivots: Pivots,
}

impl Idle for Told {
    const TELLS: bool = true;

    #[inline]
    fn new() -> Told {
        Told {
            known: 0,
            pivots: Pivots::new(),
        }
    }

    #[inline]
    fn knows(&self, seed: usize) -> bool {
        self.known & bit(seed) != 0
    }

    #[inline]
    fn learn(&mut self, seed: usize) {
        self.known |= bit(seed);
    }

    #[inline]
    fn forget(&mut self) {
        self.known = 0;
    }

    fn tells(&mut self, legs: &Legs, split: &mut Split, levels: &Levels, limit: u32) -> bool {
        self.pivots.tell(legs, split, levels.all(), limit)
    }
}
