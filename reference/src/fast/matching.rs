//! Components handed to different stations by augmenting paths.

use super::bits::{bit, indices, lowest};

/// The stations of the separator that some choice leaves without a component,
/// or nothing if there is no choice. `bare` holds the stations with a bare mark
/// to take, `fits` for each component the stations that can take it.
pub fn spare_stations(fits: &[u64], separator: u64, bare: u64) -> Option<u64> {
    let marked = fits.iter().fold(bare, |word, fit| word | fit);
    if marked != separator {
        return None;
    }
    assigned(fits, separator)
}

/// The same whatever is marked: the stations that components handed to different
/// ones can leave over, or nothing if they can't be.
pub fn assigned(fits: &[u64], separator: u64) -> Option<u64> {
    let mut matching = Matching {
        fits,
        held: [0; 64],
        free: separator,
        untried: 0,
    };
    for component in 0..fits.len() {
        matching.untried = separator;
        if !matching.augment(component) {
            return None;
        }
    }
    Some(matching.spare(separator))
}

/// Components handed to different stations.
struct Matching<'a> {
    fits: &'a [u64],
    /// The component that a station holds, if it is not free.
    held: [u8; 64],
    free: u64,
    untried: u64,
}

impl Matching<'_> {
    fn augment(&mut self, component: usize) -> bool {
        let fit = self.fits[component];
        let direct = fit & self.free;
        if direct != 0 {
            let station = lowest(direct);
            self.free &= !bit(station);
            self.held[station] = component as u8;
            return true;
        }
        loop {
            let candidates = fit & self.untried;
            if candidates == 0 {
                return false;
            }
            let station = lowest(candidates);
            self.untried &= !bit(station);
            if self.augment(usize::from(self.held[station])) {
                self.held[station] = component as u8;
                return true;
            }
        }
    }

    /// Free stations, and those whose component can move to a spare one.
    fn spare(&self, separator: u64) -> u64 {
        let mut spare = self.free;
        loop {
            let before = spare;
            for station in indices(separator & !spare) {
                if self.fits[usize::from(self.held[station])] & spare != 0 {
                    spare |= bit(station);
                }
            }
            if spare == before {
                return spare;
            }
        }
    }
}
