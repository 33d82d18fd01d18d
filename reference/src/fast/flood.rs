//! Components of a separator, and the pairs of its stations that walks through them
//! join.

use super::bits::{bit, indices, lowest, without_lone};
use super::components::grow;
use super::legs::Legs;
use crate::state::Rows;

/// A component with what its stations have met while it was grown.
pub struct Flood {
    pub component: u64,
    /// All stations that have a leg into it, and all it has a leg to.
    entered_from: u64,
    leads_to: u64,
    /// Those of them with a leg that does not stand the other way too.
    one_way: u64,
}

impl Flood {
    /// The component of the lowest station of `rest`, staying inside `rest`.
    #[inline]
    pub fn new(legs: &Legs, rest: u64) -> Flood {
        let Legs { rows, columns } = legs;
        let (mut entered_from, mut leads_to, mut one_way) = (0, 0, 0);
        let component = grow(rest, |i| {
            entered_from |= columns[i];
            leads_to |= rows[i];
            one_way |= columns[i] ^ rows[i];
            columns[i] | rows[i]
        });
        Flood {
            component,
            entered_from,
            leads_to,
            one_way,
        }
    }

    /// The first and the second stations of the pairs of the separator that a walk
    /// through the component joins.
    #[inline]
    pub fn ends(&self, legs: &Legs, separator: u64) -> (u64, u64) {
        let enter = self.entered_from & separator;
        let leave = self.leads_to & separator;
        if self.one_way & self.component == 0 {
            // By legs both ways each station inside leads to each other one. The two
            // ends of a pair differ, so a lone end bars its station.
            return (without_lone(enter, leave), without_lone(leave, enter));
        }
        // Walks back are left to make to those that no walk has come to.
        let (out, met) = leading(&legs.rows, self.component, enter, leave);
        let (others, _) = leading(&legs.columns, self.component, leave & !met, enter);
        (out, met | others)
    }
}

/// The stations of `from` that a walk inside the component leads from to another one
/// of `to`, and those of `to` that were met. A walk stops where it meets the first.
#[inline]
fn leading(words: &Rows, component: u64, from: u64, to: u64) -> (u64, u64) {
    let (mut leading, mut met) = (0, 0);
    for i in indices(from) {
        let ends = to & !bit(i);
        let mut reached = words[i] & component;
        let mut waiting = reached;
        while waiting != 0 {
            let c = lowest(waiting);
            waiting &= waiting - 1;
            if words[c] & ends != 0 {
                leading |= bit(i);
                met |= words[c] & ends;
                break;
            }
            let found = words[c] & component & !reached;
            reached |= found;
            waiting |= found;
        }
    }
    (leading, met)
}
