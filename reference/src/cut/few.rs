//! The cuts of few roads on many stations: up to two roads are taken away, and the
//! bridges of what is left are looked for.

use std::collections::BTreeSet;

use super::splits::cut_of;
use super::{roads, Road, Roads};
use crate::table::LegTable;

/// Every cut of at most three roads; where there is one of no road or of one road, only
/// these.
pub fn cuts(table: &LegTable) -> BTreeSet<Roads> {
    let kept = certificate(table.n(), roads(table));
    let network = Network::new(table.n(), &kept);
    let walk = network.walk([NO_ROAD; 2]);
    if !walk.reaches_all() {
        return BTreeSet::from([Roads::new()]);
    }
    let cuts_of = |walk: &Walk| -> Vec<Roads> {
        let groups = walk.behind_bridges.iter();
        groups.filter_map(|&group| cut_of(&kept, group)).collect()
    };
    let mut cuts = BTreeSet::from_iter(cuts_of(&walk));
    if !cuts.is_empty() {
        return cuts;
    }
    // Without a bridge, a cut of at most three roads parts the stations in just two pieces,
    // and what is left without one or two of its roads hangs together. Each spanning tree
    // has a road of it.
    for one in walk.tree {
        let walk = network.walk([one, NO_ROAD]);
        cuts.extend(cuts_of(&walk));
        for other in walk.tree {
            cuts.extend(cuts_of(&network.walk([one, other])));
        }
    }
    cuts
}

/// Four spanning forests, each of the roads that those before have left. A road that
/// none of them takes is in cuts of more than four roads only, so that cuts of at most
/// three roads are the same with them alone.
fn certificate(n: usize, mut left: Roads) -> Roads {
    let mut kept = Roads::new();
    for _ in 0..4 {
        let forest = forest(n, &left);
        left.retain(|road| !forest.contains(road));
        kept.extend(forest);
    }
    kept
}

/// Roads that join all stations that can be joined, without a ring.
fn forest(n: usize, roads: &Roads) -> Roads {
    let mut piece: Vec<usize> = (0..=n).collect();
    let mut forest = Roads::new();
    for &(i, j) in roads {
        let (one, other) = (piece[i], piece[j]);
        if one != other {
            forest.insert((i, j));
            for name in &mut piece {
                if *name == one {
                    *name = other;
                }
            }
        }
    }
    forest
}

const NO_ROAD: Road = (0, 0);

/// The neighbours of each station, and entry 0 without any.
struct Network(Vec<Vec<usize>>);

/// A walk from station 1, deep first.
struct Walk {
    /// When each station was met, and 0 where it was not.
    met: Vec<usize>,
    count: usize,
    /// The roads by which stations were first met.
    tree: Vec<Road>,
    /// The stations behind each bridge, as a word.
    behind_bridges: Vec<u64>,
}

/// What a walk from a station on has come to.
struct Behind {
    stations: u64,
    /// The earliest station that a road goes back to.
    back: usize,
}

impl Network {
    fn new(n: usize, roads: &Roads) -> Network {
        let mut neighbours = vec![Vec::new(); n + 1];
        for &(i, j) in roads {
            neighbours[i].push(j);
            neighbours[j].push(i);
        }
        Network(neighbours)
    }

    fn walk(&self, taken_away: [Road; 2]) -> Walk {
        let mut walk = Walk {
            met: vec![0; self.0.len()],
            count: 0,
            tree: Vec::new(),
            behind_bridges: Vec::new(),
        };
        self.enter(&mut walk, &taken_away, 1, 0);
        walk
    }

    fn enter(&self, walk: &mut Walk, taken_away: &[Road; 2], at: usize, from: usize) -> Behind {
        walk.count += 1;
        walk.met[at] = walk.count;
        let mut all = Behind {
            stations: 1 << (at - 1),
            back: walk.met[at],
        };
        for &next in &self.0[at] {
            let road = (at.min(next), at.max(next));
            if next == from || taken_away.contains(&road) {
                continue;
            }
            if walk.met[next] > 0 {
                all.back = all.back.min(walk.met[next]);
                continue;
            }
            walk.tree.push(road);
            let behind = self.enter(walk, taken_away, next, at);
            if behind.back > walk.met[at] {
                walk.behind_bridges.push(behind.stations);
            }
            all.stations |= behind.stations;
            all.back = all.back.min(behind.back);
        }
        all
    }
}

impl Walk {
    fn reaches_all(&self) -> bool {
        self.met.iter().skip(1).all(|&met| met > 0)
    }
}
