//! Components, grown station by station.

use super::bits::lowest;
use crate::state::Rows;

/// The component of the lowest station of `rest`, staying inside `rest`.
/// `neighbours` is asked once for each of its stations.
#[inline]
pub fn grow(rest: u64, mut neighbours: impl FnMut(usize) -> u64) -> u64 {
    let mut component = rest & rest.wrapping_neg();
    let mut waiting = component;
    while waiting != 0 {
        let i = lowest(waiting);
        waiting &= waiting - 1;
        let found = neighbours(i) & rest & !component;
        component |= found;
        waiting |= found;
    }
    component
}

/// The components of the stations of `outside`, by rising lowest station. They
/// come first in `parts`, whose other words stay, and their number comes back.
pub fn components(neighbours: &Rows, outside: u64, parts: &mut Rows) -> usize {
    let mut rest = outside;
    let mut count = 0;
    while rest != 0 {
        let component = grow(rest, |i| neighbours[i]);
        rest &= !component;
        parts[count] = component;
        count += 1;
    }
    count
}
