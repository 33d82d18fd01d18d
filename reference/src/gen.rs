//! Tables, sheets, states and split budgets made from a seed, the same ones on every machine.

mod grids;
mod last_seed;
mod long_runs;
pub mod must;
mod searches;
mod shapes;
mod splits;
mod states;
mod two_way;
mod valleys;

use std::ops::RangeInclusive;

use crate::card::{self, Number};
use crate::table::{Leg, LegTable};

pub use self::last_seed::last_seed_alone;
pub use self::long_runs::long_runs;
pub use self::searches::{struck_above, struck_beside, two_sides};
pub use self::shapes::{band, Shape, Ways, SEARCHED, SHAPES};
pub use self::splits::{cut_at, split_budget};
pub use self::states::any_state;
pub use self::two_way::{all_two_way, any_two_way, Network};
pub use self::valleys::{long_dead_end, long_valley, no_way_left, one_way_valleys};
pub use self::valleys::{road_with_gap, through_one_station, way_outside, way_struck_before};

/// Numbers that a cast to fewer bits turns into 1, or that are just large.
pub const WIDE_NUMBERS: [u64; 5] = [257, 1 << 32, (1 << 32) + 1, 1 << 63, u64::MAX];

/// Marsaglia's generator with shifts 13, 7, 17.
pub struct Xorshift {
    word: u64,
}

impl Xorshift {
    pub fn new(seed: u64) -> Xorshift {
        // Spread small seeds; the word must not be zero, or it stays zero.
        let word = seed.wrapping_mul(0x9E37_79B9_7F4A_7C15) | 1;
        Xorshift { word }
    }

    /// Another generator, which leaves the numbers of this one as they are.
    pub fn apart(&self) -> Xorshift {
        Xorshift::new(!self.word)
    }

    pub fn word(&mut self) -> u64 {
        self.word ^= self.word << 13;
        self.word ^= self.word >> 7;
        self.word ^= self.word << 17;
        self.word
    }

    pub fn below(&mut self, bound: usize) -> usize {
        ((self.word() >> 16) % bound as u64) as usize
    }

    /// A number from `low` to `high`, both included.
    pub fn between(&mut self, low: usize, high: usize) -> usize {
        low + self.below(high - low + 1)
    }

    pub fn percent(&mut self, chance: usize) -> bool {
        self.below(100) < chance
    }

    pub fn pick<T: Copy>(&mut self, items: &[T]) -> T {
        items[self.below(items.len())]
    }

    /// Stations 1 to n in random order.
    pub fn order(&mut self, n: usize) -> Vec<usize> {
        let mut order: Vec<usize> = (1..=n).collect();
        for last in (1..n).rev() {
            let other = self.below(last + 1);
            order.swap(last, other);
        }
        order
    }
}

/// Kinds of tables, each with traps of its own for a filter.
#[derive(Clone, Copy, Debug, PartialEq, Eq)]
pub enum Family {
    Full,
    Sparse,
    Medium,
    Dense,
    /// One round and a few more legs.
    RingWithChords,
    /// A two-way ring with legs across it, perhaps with a dead end: separators
    /// of two stations that must strike the legs between them.
    RingWithRungs,
    /// Cells of a grid, joined both ways.
    Grid,
    /// A chain of groups, neighbouring groups sharing one station.
    ClustersAtOne,
    /// The same, sharing two stations.
    ClustersAtTwo,
    /// Groups in a ring, joined in one direction.
    OneWayRoads,
    /// Groups without any leg between them.
    Islands,
    /// Few hubs and hardly more single stations between them, so that
    /// components and stations of a separator just balance.
    Hubs,
    /// One round, of which a leg may be missing, and hardly any other leg.
    RingWithFewChords,
    /// Roads away from one station, driven one way, and a few legs more.
    OneWayTree,
    /// Chains with the legs that close them, and legs from their ends to their
    /// starts.
    ClosingLegs,
    /// Loops over a few stations each, and a few legs between them.
    SmallLoops,
    /// No two stations lead to the same one, apart from a few legs more.
    Permutation,
}

impl Family {
    /// The ones that passes have much to do on.
    pub const FOR_PASSES: [Family; 12] = [
        Family::Full,
        Family::Sparse,
        Family::Medium,
        Family::Dense,
        Family::RingWithChords,
        Family::RingWithRungs,
        Family::Grid,
        Family::ClustersAtOne,
        Family::ClustersAtTwo,
        Family::OneWayRoads,
        Family::Islands,
        Family::Hubs,
    ];

    /// The ones in which compulsory legs are common.
    pub const FOR_CHAINS: [Family; 5] = [
        Family::RingWithFewChords,
        Family::OneWayTree,
        Family::ClosingLegs,
        Family::SmallLoops,
        Family::Permutation,
    ];

    /// The ones on which a pass or a run often goes on after a level has struck
    /// legs.
    pub const WITH_STRIKING_LEVELS: [Family; 6] = [
        Family::Medium,
        Family::RingWithChords,
        Family::ClustersAtTwo,
        Family::OneWayRoads,
        Family::ClosingLegs,
        Family::SmallLoops,
    ];

    /// One of all families.
    pub fn any(rng: &mut Xorshift) -> Family {
        let for_passes = Family::FOR_PASSES.len();
        match rng.below(for_passes + Family::FOR_CHAINS.len()) {
            at if at < for_passes => Family::FOR_PASSES[at],
            at => Family::FOR_CHAINS[at - for_passes],
        }
    }

    /// A table of n stations of this family.
    pub fn table(self, rng: &mut Xorshift, n: usize) -> LegTable {
        match self {
            Family::Full => LegTable::full(n),
            Family::Sparse => random(rng, n, 100 / n + 10),
            Family::Medium => random(rng, n, 35),
            Family::Dense => random(rng, n, 80),
            Family::RingWithChords => ring_with_chords(rng, n),
            Family::RingWithRungs => ring_with_rungs(rng, n),
            Family::Grid => grid(rng, n),
            Family::ClustersAtOne => clusters(rng, n, 1),
            Family::ClustersAtTwo => clusters(rng, n, 2),
            Family::OneWayRoads => one_way_roads(rng, n),
            Family::Islands => islands(rng, n),
            Family::Hubs => hubs(rng, n),
            Family::RingWithFewChords => ring_with_few_chords(rng, n),
            Family::OneWayTree => one_way_tree(rng, n),
            Family::ClosingLegs => closing_legs(rng, n),
            Family::SmallLoops => small_loops(rng, n),
            Family::Permutation => permutation(rng, n),
        }
    }
}

/// A table of any family.
pub fn any_table(rng: &mut Xorshift, n: usize) -> LegTable {
    let family = Family::any(rng);
    family.table(rng, n)
}

/// Every table of n stations.
pub fn all_tables(n: usize) -> impl Iterator<Item = LegTable> {
    let legs = LegTable::full(n).legs();
    (0..1_u32 << legs.len()).map(move |code| {
        let kept = legs.iter().enumerate();
        let kept = kept.filter(|(at, _)| code >> at & 1 == 1);
        LegTable::from_legs(n, kept.map(|(_, &leg)| leg))
    })
}

/// Each leg with the same chance, in percent.
pub fn random(rng: &mut Xorshift, n: usize, density: usize) -> LegTable {
    let legs = LegTable::full(n).legs();
    let kept: Vec<_> = legs.into_iter().filter(|_| rng.percent(density)).collect();
    LegTable::from_legs(n, kept)
}

/// The round 1→2→…→n→1 and nothing else.
pub fn ring(n: usize) -> LegTable {
    LegTable::from_legs(n, (1..=n).map(|i| (i, i % n + 1)))
}

/// All legs of n stations, but station 1 leads only to 2, that one only to 3 and so
/// on up to station `length`.
pub fn chain_among(length: usize, n: usize) -> LegTable {
    let decided = |(i, j): &Leg| *i >= length || *j == i + 1;
    LegTable::from_legs(n, LegTable::full(n).legs().into_iter().filter(decided))
}

/// The same, and station `length` leads only to 1.
pub fn loop_among(length: usize, n: usize) -> LegTable {
    let decided = |(i, j): &Leg| *i != length || *j == 1;
    let legs = chain_among(length, n).legs();
    LegTable::from_legs(n, legs.into_iter().filter(decided))
}

/// Adds the legs of a random round and says which: entry i−1 follows station i.
pub fn plant_round(rng: &mut Xorshift, table: &mut LegTable) -> Vec<usize> {
    let round = random_round(rng, table.n());
    add_round(table, &round);
    round
}

/// A round of the full table.
pub fn random_round(rng: &mut Xorshift, n: usize) -> Vec<usize> {
    round_along(&rng.order(n))
}

/// The round that comes to the stations in this order.
fn round_along(order: &[usize]) -> Vec<usize> {
    let mut round = vec![0; order.len()];
    for (at, &station) in order.iter().enumerate() {
        round[station - 1] = order[(at + 1) % order.len()];
    }
    round
}

fn add_round(table: &mut LegTable, round: &[usize]) {
    for (at, &next) in round.iter().enumerate() {
        table.add(at + 1, next);
    }
}

/// All lists of n numbers of a range; the first number changes fastest.
pub fn all_lists(n: usize, numbers: RangeInclusive<u8>) -> impl Iterator<Item = Vec<u8>> {
    let (low, base) = (*numbers.start(), numbers.count());
    (0..base.pow(n as u32)).map(move |code| {
        let digits = (0..n as u32).map(|at| code / base.pow(at) % base);
        digits.map(|digit| low + digit as u8).collect()
    })
}

/// The table in which each station has these next ones.
pub fn from_next(next: &[&'static [usize]]) -> LegTable {
    let legs = |(at, next): (usize, &&'static [usize])| next.iter().map(move |&j| (at + 1, j));
    LegTable::from_legs(next.len(), next.iter().enumerate().flat_map(legs))
}

/// The table with both directions of each given road.
pub fn two_way(n: usize, roads: &[(usize, usize)]) -> LegTable {
    LegTable::from_legs(n, roads.iter().flat_map(|&(i, j)| [(i, j), (j, i)]))
}

/// A two-way ring of six with a leg across from 2 to 6, and behind station 4 a
/// dead end of 7 and 8. From seed 1 level {2, 6} strikes that leg, level {3, 5}
/// keeps all, and level {4} gives none.
pub fn rung_and_dead_end() -> LegTable {
    let mut roads: Vec<Leg> = (1..=6).map(|i| (i, i % 6 + 1)).collect();
    roads.extend([(4, 7), (4, 8), (7, 8)]);
    let mut table = two_way(8, &roads);
    table.add(2, 6);
    table
}

/// From seed 1 the separator is {2, 3, 4} with the components {1} and {5}. Every
/// in-choice takes 3→2 bare and no out-choice does: the legs 3→2 and 4→3 go
/// together, and striking for one direction before looking at the other would
/// wrongly say none.
pub fn choices_at_odds() -> LegTable {
    let outside = [(2, 1), (1, 3), (1, 4), (3, 5), (5, 3), (5, 4)];
    let inside = [(3, 2), (4, 3)];
    LegTable::from_legs(5, outside.into_iter().chain(inside))
}

/// A two-way ring of n stations, n even, with roads across it between the stations
/// at the same distance from station 1. From there every level but the last has two
/// stations and strikes the road between them.
pub fn ring_of_rungs(n: usize) -> LegTable {
    let around = (1..=n).map(|i| (i, i % n + 1));
    let across = (2..=n / 2).map(|i| (i, n + 2 - i));
    two_way(n, &around.chain(across).collect::<Vec<_>>())
}

/// From seed 1 there are two inner levels of as many stations, all joined. The
/// first one strikes the roads between its first station and the others, the second
/// one the road between its first two.
pub fn two_wide_levels(width: usize) -> LegTable {
    let (first, second) = (2..=width + 1, width + 2..=2 * width + 1);
    let n = 2 * width + 2;
    let mut table = LegTable::empty(n);
    for (i, j) in LegTable::full(n).legs() {
        let inside = |level: &RangeInclusive<usize>| level.contains(&i) && level.contains(&j);
        let between = first.contains(&i) && second.contains(&j);
        let from_the_ends = i == 1 && first.contains(&j) || i == n && second.contains(&j);
        if inside(&first) || inside(&second) || between || from_the_ends {
            table.add(i, j);
        }
    }
    for (i, j) in [(2, 1), (width + 2, 2), (width + 3, n)] {
        table.add(i, j);
    }
    table
}

/// The table with every leg turned round.
pub fn reversed(table: &LegTable) -> LegTable {
    LegTable::from_legs(table.n(), table.legs().into_iter().map(|(i, j)| (j, i)))
}

/// The table with station i renamed to `names[i - 1]`.
pub fn renamed(table: &LegTable, names: &[usize]) -> LegTable {
    let legs = table.legs().into_iter();
    LegTable::from_legs(table.n(), legs.map(|(i, j)| (names[i - 1], names[j - 1])))
}

fn shuffled(rng: &mut Xorshift, table: &LegTable) -> LegTable {
    let names = rng.order(table.n());
    renamed(table, &names)
}

fn ring_with_chords(rng: &mut Xorshift, n: usize) -> LegTable {
    let mut table = shuffled(rng, &ring(n));
    let count = rng.between(1, n);
    add_legs(rng, &mut table, count);
    table
}

/// Adds up to so many legs.
fn add_legs(rng: &mut Xorshift, table: &mut LegTable, count: usize) {
    let n = table.n();
    for _ in 0..count {
        let (i, j) = (rng.between(1, n), rng.between(1, n));
        if i != j {
            table.add(i, j);
        }
    }
}

/// Rungs join the stations at the same distance from station 1. A dead end is
/// two stations behind the one farthest away.
fn ring_with_rungs(rng: &mut Xorshift, n: usize) -> LegTable {
    let tail = if n >= 7 && rng.percent(30) { 2 } else { 0 };
    let around = n - tail;
    let mut roads: Vec<Leg> = (1..=around).map(|i| (i, i % around + 1)).collect();
    if tail > 0 {
        let farthest = around / 2 + 1;
        roads.extend([(farthest, n - 1), (farthest, n), (n - 1, n)]);
    }
    let mut table = two_way(n, &roads);
    for distance in 1..around.div_ceil(2) {
        let (left, right) = (1 + distance, 1 + around - distance);
        if rng.percent(60) {
            table.add(left, right);
        }
        if rng.percent(60) {
            table.add(right, left);
        }
    }
    shuffled(rng, &table)
}

fn grid(rng: &mut Xorshift, n: usize) -> LegTable {
    let width = (1..=n).find(|width| width * width >= n).unwrap_or(n);
    let across = (1..n).filter(|i| i % width != 0).map(|i| (i, i + 1));
    let along = (1..=n.saturating_sub(width)).map(|i| (i, i + width));
    let table = two_way(n, &across.chain(along).collect::<Vec<_>>());
    shuffled(rng, &table)
}

/// Adds legs between the stations of a group, each with the same chance.
fn fill_group(rng: &mut Xorshift, table: &mut LegTable, group: &[usize], density: usize) {
    for &i in group {
        for &j in group {
            if i != j && rng.percent(density) {
                table.add(i, j);
            }
        }
    }
}

fn clusters(rng: &mut Xorshift, n: usize, shared: usize) -> LegTable {
    let mut table = LegTable::empty(n);
    let density = rng.pick(&[60, 85, 100]);
    let mut start = 1;
    loop {
        let end = (start + rng.between(shared + 1, shared + 3)).min(n);
        let group: Vec<usize> = (start..=end).collect();
        fill_group(rng, &mut table, &group, density);
        if end == n {
            return shuffled(rng, &table);
        }
        start = end + 1 - shared;
    }
}

fn one_way_roads(rng: &mut Xorshift, n: usize) -> LegTable {
    let size = rng.between(1, n.min(4));
    let stations: Vec<usize> = (1..=n).collect();
    let groups: Vec<&[usize]> = stations.chunks(size).collect();
    let mut table = LegTable::empty(n);
    for (at, group) in groups.iter().enumerate() {
        fill_group(rng, &mut table, group, 50);
        for &i in *group {
            for &j in groups[(at + 1) % groups.len()] {
                if i != j && rng.percent(70) {
                    table.add(i, j);
                }
            }
        }
    }
    shuffled(rng, &table)
}

fn islands(rng: &mut Xorshift, n: usize) -> LegTable {
    let mut table = LegTable::empty(n);
    let size = rng.between(n.div_ceil(3), n - n / 3);
    let order = rng.order(n);
    for group in order.chunks(size) {
        let density = rng.pick(&[50, 100]);
        fill_group(rng, &mut table, group, density);
    }
    table
}

/// Two or three groups without any leg between them. In one whose stations are all
/// joined there is no inner level; in one of two halves, joined across, the only
/// one has about half of the stations, and a pass with a low limit skips it.
pub fn wide_islands(rng: &mut Xorshift, n: usize) -> LegTable {
    let mut table = LegTable::empty(n);
    let order = rng.order(n);
    let mut rest = &order[..];
    for more in (0..rng.between(2, n.min(3))).rev() {
        let size = match more {
            0 => rest.len(),
            _ if rng.percent(25) => 1,
            _ => rng.between(1, rest.len() - more),
        };
        let (island, others) = rest.split_at(size);
        join_island(rng, &mut table, island);
        rest = others;
    }
    table
}

/// Roads between all stations or between two halves; some may be one-way.
fn join_island(rng: &mut Xorshift, table: &mut LegTable, island: &[usize]) {
    let halves = rng.percent(70);
    let two_way = rng.pick(&[40, 90, 100]);
    let middle = island.len() / 2;
    for (at, &i) in island.iter().enumerate() {
        for (before, &j) in island[..at].iter().enumerate() {
            if !halves || (before < middle && middle <= at) {
                add_road(rng, table, (i, j), two_way);
            }
        }
    }
}

/// Both legs with some chance, in percent, else one of them.
fn add_road(rng: &mut Xorshift, table: &mut LegTable, (i, j): Leg, two_way: usize) {
    let (from, to) = if rng.percent(50) { (i, j) } else { (j, i) };
    table.add(from, to);
    if rng.percent(two_way) {
        table.add(to, from);
    }
}

fn hubs(rng: &mut Xorshift, n: usize) -> LegTable {
    let hubs = n / 2 + rng.below(2);
    let mut table = LegTable::empty(n);
    let inner: Vec<usize> = (1..=hubs).collect();
    fill_group(rng, &mut table, &inner, 40);
    // The first spoke joins all hubs and so makes them a level.
    for spoke in hubs + 1..=n {
        let density = if spoke == hubs + 1 { 100 } else { 45 };
        for hub in 1..=hubs {
            if rng.percent(density) {
                table.add(spoke, hub);
            }
            if rng.percent(density) {
                table.add(hub, spoke);
            }
        }
    }
    shuffled(rng, &table)
}

fn ring_with_few_chords(rng: &mut Xorshift, n: usize) -> LegTable {
    let mut table = ring(n);
    if rng.percent(30) {
        table.strike(&[(n, 1)]);
    }
    let count = rng.below(4);
    add_legs(rng, &mut table, count);
    shuffled(rng, &table)
}

/// Mostly a station follows the one before it, else one of some more before.
fn one_way_tree(rng: &mut Xorshift, n: usize) -> LegTable {
    let mut table = LegTable::empty(n);
    for station in 2..=n {
        let back = if rng.percent(75) {
            1
        } else {
            rng.between(1, 4)
        };
        table.add(station.saturating_sub(back).max(1), station);
    }
    let count = rng.below(n);
    add_legs(rng, &mut table, count);
    shuffled(rng, &table)
}

/// Stations in a row, cut into groups of two to six; the last may be smaller.
fn short_groups(rng: &mut Xorshift, n: usize) -> Vec<RangeInclusive<usize>> {
    let mut groups = Vec::new();
    let mut start = 1;
    while start <= n {
        let end = (start + rng.between(1, 5)).min(n);
        groups.push(start..=end);
        start = end + 1;
    }
    groups
}

/// A leg from each station of a group to the next one.
fn legs_along(group: &RangeInclusive<usize>) -> impl Iterator<Item = Leg> {
    (*group.start()..*group.end()).map(|i| (i, i + 1))
}

fn closing_legs(rng: &mut Xorshift, n: usize) -> LegTable {
    let groups = short_groups(rng, n);
    let mut table = LegTable::from_legs(n, groups.iter().flat_map(legs_along));
    let density = rng.pick(&[50, 80, 100]);
    for from in &groups {
        for to in &groups {
            if from.end() != to.start() && rng.percent(density) {
                table.add(*from.end(), *to.start());
            }
        }
    }
    let count = rng.below(n.div_ceil(4));
    add_legs(rng, &mut table, count);
    shuffled(rng, &table)
}

fn small_loops(rng: &mut Xorshift, n: usize) -> LegTable {
    let mut table = LegTable::empty(n);
    for group in short_groups(rng, n) {
        let closing = (*group.end(), *group.start());
        let closed = legs_along(&group).chain([closing]);
        for (i, j) in closed.filter(|(i, j)| i != j) {
            table.add(i, j);
        }
    }
    let count = rng.below(2 * n);
    add_legs(rng, &mut table, count);
    shuffled(rng, &table)
}

fn permutation(rng: &mut Xorshift, n: usize) -> LegTable {
    let order = rng.order(n).into_iter().enumerate();
    let legs = order.map(|(at, next)| (at + 1, next));
    let mut table = LegTable::from_legs(n, legs.filter(|(i, j)| i != j));
    let count = rng.below(n);
    add_legs(rng, &mut table, count);
    table
}

/// One record of a sheet, fields as they are written.
#[derive(Clone, Copy, Debug, Default)]
pub struct Record {
    pub next: Option<u64>,
    pub previous: Option<u64>,
    pub fixed: Option<u8>,
}

impl Record {
    fn bytes(&self) -> Vec<u8> {
        let map = u8::from(self.next.is_some())
            + 2 * u8::from(self.previous.is_some())
            + 4 * u8::from(self.fixed.is_some());
        let mut bytes = vec![map];
        bytes.extend(self.next.iter().flat_map(|set| set.to_le_bytes()));
        bytes.extend(self.previous.iter().flat_map(|set| set.to_le_bytes()));
        bytes.extend(self.fixed);
        bytes
    }
}

/// A sheet as a list of records, one for each station.
#[derive(Clone, Debug)]
pub struct Sheet {
    pub records: Vec<Record>,
}

impl Sheet {
    /// n records without any field.
    pub fn plain(n: usize) -> Sheet {
        Sheet {
            records: vec![Record::default(); n],
        }
    }

    /// 64 records with every field, fixed to the round 1→2→…→64→1.
    pub fn longest() -> Sheet {
        let record = |station: u8| Record {
            next: Some(u64::MAX),
            previous: Some(u64::MAX),
            fixed: Some(station % 64 + 1),
        };
        Sheet {
            records: (1..=64).map(record).collect(),
        }
    }

    /// The sheet that gives a table by its next sets alone. Full rows need none.
    pub fn of(table: &LegTable) -> Sheet {
        let mut sheet = Sheet::plain(table.n());
        let full = LegTable::full(table.n()).rows();
        for (at, row) in table.rows()[..table.n()].iter().enumerate() {
            if *row != full[at] {
                sheet.records[at].next = Some(*row);
            }
        }
        sheet
    }

    /// The shortest sheet that gives a table without previous sets: a row of one
    /// leg is fixed, and a full one needs no field.
    pub fn short(table: &LegTable) -> Sheet {
        let mut sheet = Sheet::of(table);
        for (record, i) in sheet.records.iter_mut().zip(table.stations()) {
            let only = table.successors(i).first();
            if let Some(&next) = only.filter(|_| table.successors(i).len() == 1) {
                *record = Record {
                    fixed: Some(next as u8),
                    ..Record::default()
                };
            }
        }
        sheet
    }

    /// The sheet that gives a table by its previous sets alone.
    pub fn of_by_previous(table: &LegTable) -> Sheet {
        let columns = reversed(table).rows();
        let mut sheet = Sheet::plain(table.n());
        for (record, column) in sheet.records.iter_mut().zip(columns) {
            record.previous = Some(column);
        }
        sheet
    }

    /// A sheet that gives a table by fields of all kinds. Each missing leg is
    /// left out of a next set, of a previous set or of both, or its station is
    /// fixed elsewhere.
    pub fn mixed(rng: &mut Xorshift, table: &LegTable) -> Sheet {
        let n = table.n();
        let all = u64::MAX >> (64 - n);
        let mut sheet = Sheet::plain(n);
        let (mut next, mut previous) = (vec![all; n], vec![all; n]);
        for i in 1..=n {
            let fixed = fixed_station(rng, table, i);
            sheet.records[i - 1].fixed = fixed.map(|station| station as u8);
            for j in table.stations().filter(|&j| !table.has(i, j)) {
                // The own bit and those of a fixed station may stay in both.
                let least = usize::from(i != j && fixed.is_none());
                let cut = rng.between(least, 3);
                if cut & 1 != 0 {
                    next[i - 1] &= !(1 << (j - 1));
                }
                if cut & 2 != 0 {
                    previous[j - 1] &= !(1 << (i - 1));
                }
            }
        }
        // A set of all stations is mostly left away.
        for (at, record) in sheet.records.iter_mut().enumerate() {
            record.next = (next[at] != all || rng.percent(30)).then_some(next[at]);
            record.previous = (previous[at] != all || rng.percent(30)).then_some(previous[at]);
        }
        sheet
    }

    /// Any mixture of fields; sets may hold the own station or nothing.
    pub fn random(rng: &mut Xorshift, n: usize) -> Sheet {
        let mut sheet = Sheet::plain(n);
        for record in &mut sheet.records {
            record.next = rng.percent(60).then(|| random_set(rng, n));
            record.previous = rng.percent(40).then(|| random_set(rng, n));
            record.fixed = rng.percent(15).then(|| rng.between(1, n) as u8);
        }
        sheet
    }

    pub fn bytes(&self) -> Vec<u8> {
        let mut bytes = vec![self.records.len() as u8];
        for record in &self.records {
            bytes.extend(record.bytes());
        }
        bytes
    }

    /// Where the map of a record stands, records counted from 0.
    pub fn map_at(&self, record: usize) -> usize {
        let before = &self.records[..record];
        1 + before.iter().map(|r| r.bytes().len()).sum::<usize>()
    }
}

/// The station that one with at most a single leg is fixed to, if it is.
fn fixed_station(rng: &mut Xorshift, table: &LegTable, i: usize) -> Option<usize> {
    let successors = table.successors(i);
    let fix = successors.len() <= 1 && rng.percent(60);
    fix.then(|| successors.first().copied().unwrap_or(i))
}

fn random_set(rng: &mut Xorshift, n: usize) -> u64 {
    let all = u64::MAX >> (64 - n);
    match rng.below(20) {
        0 => 0,
        1 => all,
        2..=5 => rng.word() & rng.word() & all,
        _ => (rng.word() | rng.word()) & all,
    }
}

/// A sheet that is refused, with the answer it must get.
#[derive(Clone, Debug)]
pub struct Damaged {
    pub bytes: Vec<u8>,
    pub number: Number,
    pub place: usize,
}

/// Damages a sound sheet so that it is refused with the given number, 1 to 5.
pub fn damaged(rng: &mut Xorshift, sheet: &Sheet, number: Number) -> Damaged {
    match number {
        card::CUT_SHEET => cut(rng, sheet),
        card::BAD_COUNT => bad_count(rng, sheet),
        card::UNKNOWN_BIT => unknown_bit(rng, sheet),
        card::STRAY_STATION => stray_station(rng, sheet),
        card::OVERHANG => overhang(rng, sheet),
        _ => panic!("no sheet is refused with {number}"),
    }
}

fn cut(rng: &mut Xorshift, sheet: &Sheet) -> Damaged {
    let mut bytes = sheet.bytes();
    bytes.truncate(rng.below(bytes.len()));
    Damaged {
        number: card::CUT_SHEET,
        place: bytes.len(),
        bytes,
    }
}

fn bad_count(rng: &mut Xorshift, sheet: &Sheet) -> Damaged {
    let mut bytes = sheet.bytes();
    bytes[0] = rng.pick(&[0, 1, 65, 66, 128, 255]);
    Damaged {
        number: card::BAD_COUNT,
        place: 0,
        bytes,
    }
}

fn unknown_bit(rng: &mut Xorshift, sheet: &Sheet) -> Damaged {
    let mut bytes = sheet.bytes();
    let place = sheet.map_at(rng.below(sheet.records.len()));
    bytes[place] |= 8 << rng.below(5);
    Damaged {
        number: card::UNKNOWN_BIT,
        place,
        bytes,
    }
}

fn stray_station(rng: &mut Xorshift, sheet: &Sheet) -> Damaged {
    let n = sheet.records.len();
    let mut sheet = sheet.clone();
    let at = rng.below(n);
    let map_at = sheet.map_at(at);
    let record = &mut sheet.records[at];
    let stray_bit = |rng: &mut Xorshift| 1 << rng.between(n, 63);
    // In 64 stations no set has room for a stray one.
    let field = if n < 64 { rng.below(3) } else { 2 };
    let place = match field {
        0 => {
            record.next = Some(record.next.unwrap_or(0) | stray_bit(rng));
            map_at + 1
        }
        1 => {
            record.previous = Some(record.previous.unwrap_or(0) | stray_bit(rng));
            map_at + record.bytes().len() - 8 - usize::from(record.fixed.is_some())
        }
        _ => {
            record.fixed = Some(rng.pick(&[0, n as u8 + 1, 255]));
            map_at + record.bytes().len() - 1
        }
    };
    Damaged {
        bytes: sheet.bytes(),
        number: card::STRAY_STATION,
        place,
    }
}

fn overhang(rng: &mut Xorshift, sheet: &Sheet) -> Damaged {
    let mut bytes = sheet.bytes();
    let place = bytes.len();
    for _ in 0..rng.between(1, 3) {
        bytes.push(rng.below(256) as u8);
    }
    Damaged {
        bytes,
        number: card::OVERHANG,
        place,
    }
}
