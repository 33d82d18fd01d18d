//! Two-way tables, most of them with many cuts of few roads, and under any names.

use super::grids::two_way_grid;
use super::{renamed, ring, round_along, two_way, Xorshift};
use crate::cut::{roads, Road};
use crate::table::LegTable;

/// Kinds of two-way tables.
#[derive(Clone, Copy, Debug, PartialEq, Eq)]
pub enum Network {
    /// A tree and up to half as many roads more as there are stations.
    Tree,
    /// Two sides with rungs between them, of which some are missing.
    Ladder,
    /// A ring and few roads across it.
    RingWithChords,
    /// Groups in a row or in a ring, joined by up to three roads, rarely by none.
    Clusters,
    /// A ring whose stations are also joined in pairs.
    Cubic,
    /// A grid without some of its roads.
    Grid,
    /// Roads at random, about three or four a station.
    Random,
}

impl Network {
    pub const ALL: [Network; 7] = [
        Network::Tree,
        Network::Ladder,
        Network::RingWithChords,
        Network::Clusters,
        Network::Cubic,
        Network::Grid,
        Network::Random,
    ];

    /// A table of n stations, 3 or more, and a round that is known of it.
    pub fn table(self, rng: &mut Xorshift, n: usize) -> (LegTable, Option<Vec<usize>>) {
        let names = rng.order(n);
        let (table, around) = match self {
            Network::Tree => (tree(rng, n), false),
            Network::Ladder => (ladder(rng, n), true),
            Network::RingWithChords => (ring_with_chords(rng, n), true),
            Network::Clusters => (clusters(rng, n), false),
            Network::Cubic => (cubic(rng, n), true),
            Network::Grid => (grid(rng, n), false),
            Network::Random => (random_roads(rng, n), false),
        };
        let round = around.then(|| round_along(&names));
        (renamed(&table, &names), round)
    }
}

/// A table of any kind, and a round that is known of it.
pub fn any_two_way(rng: &mut Xorshift, n: usize) -> (LegTable, Option<Vec<usize>>) {
    rng.pick(&Network::ALL).table(rng, n)
}

/// Every two-way table of n stations.
pub fn all_two_way(n: usize) -> impl Iterator<Item = LegTable> {
    let all: Vec<Road> = roads(&LegTable::full(n)).into_iter().collect();
    (0..1_u32 << all.len()).map(move |code| {
        let kept = all.iter().enumerate();
        let kept = kept.filter(|(at, _)| code >> at & 1 == 1);
        two_way(n, &kept.map(|(_, &road)| road).collect::<Vec<_>>())
    })
}

/// A road between any two stations.
fn any_road(rng: &mut Xorshift, n: usize) -> Road {
    let i = rng.between(1, n);
    let j = (i + rng.between(1, n - 1) - 1) % n + 1;
    (i, j)
}

fn tree(rng: &mut Xorshift, n: usize) -> LegTable {
    let mut roads: Vec<Road> = (2..=n).map(|i| (i, rng.between(1, i - 1))).collect();
    for _ in 0..rng.between(0, n / 2) {
        roads.push(any_road(rng, n));
    }
    two_way(n, &roads)
}

/// The sides are the two halves of a ring, so that its ends are closed.
fn ladder(rng: &mut Xorshift, n: usize) -> LegTable {
    let standing = rng.pick(&[50, 80, 100]);
    let rungs = (2..n / 2).map(|i| (i, n + 1 - i));
    let mut roads = ring(n).legs();
    roads.extend(rungs.filter(|_| rng.percent(standing)));
    two_way(n, &roads)
}

fn ring_with_chords(rng: &mut Xorshift, n: usize) -> LegTable {
    let mut roads = ring(n).legs();
    for _ in 0..rng.between(0, n / 2) {
        roads.push(any_road(rng, n));
    }
    two_way(n, &roads)
}

fn clusters(rng: &mut Xorshift, n: usize) -> LegTable {
    let density = rng.pick(&[40, 70, 100]);
    let stations: Vec<usize> = (1..=n).collect();
    let groups: Vec<&[usize]> = stations.chunks(rng.between(1, 5.min(n))).collect();
    let mut roads = Vec::new();
    for (at, group) in groups.iter().enumerate() {
        roads.extend(group.windows(2).map(|pair| (pair[0], pair[1])));
        let pairs = group
            .iter()
            .flat_map(|&i| (group[0]..i).map(move |j| (j, i)));
        roads.extend(pairs.filter(|_| rng.percent(density)));
        let next = groups[(at + 1) % groups.len()];
        // The last group need not be joined to the first one, and few others may be apart.
        let fewest = usize::from(at + 1 < groups.len() && rng.percent(95));
        for _ in 0..rng.between(fewest, 3) {
            let (i, j) = (rng.pick(group), rng.pick(next));
            roads.extend((i != j).then_some((i, j)));
        }
    }
    two_way(n, &roads)
}

fn cubic(rng: &mut Xorshift, n: usize) -> LegTable {
    let order = rng.order(n);
    let pairs = order.chunks_exact(2).map(|pair| (pair[0], pair[1]));
    let roads: Vec<Road> = ring(n).legs().into_iter().chain(pairs).collect();
    two_way(n, &roads)
}

fn grid(rng: &mut Xorshift, n: usize) -> LegTable {
    let mut roads: Vec<Road> = roads(&two_way_grid(n)).into_iter().collect();
    for _ in 0..rng.between(0, 2) {
        roads.swap_remove(rng.below(roads.len()));
    }
    two_way(n, &roads)
}

fn random_roads(rng: &mut Xorshift, n: usize) -> LegTable {
    let count = n * rng.between(3, 4) / 2;
    let roads: Vec<Road> = (0..count).map(|_| any_road(rng, n)).collect();
    two_way(n, &roads)
}
