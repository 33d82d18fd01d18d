//! Tables for searches.

use super::{from_next, renamed, two_way, Xorshift};
use crate::table::{Leg, LegTable};

/// A table of 5 to 8 stations in two groups, with most roads across and few inside. If the
/// groups differ in size there is often no round, and runs with a low limit rarely tell.
pub fn two_sides(rng: &mut Xorshift) -> LegTable {
    let n = rng.between(5, 8);
    let side = rng.between(n / 2 - 1, n / 2);
    let mut roads: Vec<Leg> = Vec::new();
    for i in 1..=n {
        for j in i + 1..=n {
            let across = i <= side && side < j;
            if rng.percent(if across { 85 } else { 8 }) {
                roads.push((i, j));
            }
        }
    }
    renamed(&two_way(n, &roads), &rng.order(n))
}

/// A table with a search of 8 nodes. If children took their table from before the run of
/// their node, their own runs would not strike all that it had struck, and a node would be
/// entered in vain.
pub fn struck_above() -> LegTable {
    from_next(&[
        &[3, 7],
        &[1, 5, 6],
        &[6, 7],
        &[1, 5],
        &[1, 4],
        &[2, 3, 4, 7],
        &[2, 3],
    ])
}

/// A table with a search of 12 nodes. If a decision struck the other legs to the next
/// station too, a run would start with fewer legs and leave more, and a node would be
/// entered in vain.
pub fn struck_beside() -> LegTable {
    from_next(&[
        &[2],
        &[9],
        &[5, 11],
        &[1, 3, 7],
        &[8, 11],
        &[1, 4, 10],
        &[10, 11],
        &[3, 6, 7],
        &[6, 8, 10],
        &[4, 11],
        &[5, 6],
    ])
}
