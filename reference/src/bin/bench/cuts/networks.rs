//! The networks that are cut.

use reference::gen::{renamed, ring, two_way, Shape, Ways, Xorshift, SEARCHED, SHAPES};
use reference::state::Rows;
use reference::{fast, End, LegTable, WorkState};

use crate::LIMIT;

pub const SIZES: [usize; 3] = [16, 32, 64];
pub const TABLES: usize = 20;

/// A two-way table and its must-drive roads.
pub struct Network {
    pub state: WorkState,
    pub must: Rows,
}

impl Network {
    fn of(table: &LegTable, must: &LegTable) -> Network {
        Network {
            state: WorkState::opened(table, LIMIT as u64),
            must: must.rows(),
        }
    }

    fn numbered_at_random(rng: &mut Xorshift, table: &LegTable, must: &LegTable) -> Network {
        let names = rng.order(table.n());
        Network::of(&renamed(table, &names), &renamed(must, &names))
    }

    /// The two tables that a step hands back, if it does not give none.
    fn after_step(&self) -> Option<Network> {
        let done = fast::cut(self.state, &self.must);
        let after = Network {
            state: done.state,
            must: done.must,
        };
        (done.state.end != End::None).then_some(after)
    }
}

type Make = Box<dyn Fn(&mut Xorshift, usize) -> Network>;

pub struct Family {
    pub name: &'static str,
    make: Make,
}

/// Families by where their must-drive roads come from.
pub struct Group {
    pub name: &'static str,
    pub families: Vec<Family>,
}

impl Family {
    fn new(name: &'static str, make: impl Fn(&mut Xorshift, usize) -> Network + 'static) -> Family {
        let make = Box::new(make);
        Family { name, make }
    }

    /// Of a shape, those on which a step does not give none.
    fn drawn(shape: &'static Shape) -> Family {
        Family::new(shape.name, |rng, n| loop {
            let network = Network::of(&shape.table(rng, n), &LegTable::empty(n));
            if network.after_step().is_some() {
                return network;
            }
        })
    }

    /// The same table under any names.
    fn named(name: &'static str, table: fn(usize) -> LegTable) -> Family {
        Family::new(name, move |rng, n| {
            Network::numbered_at_random(rng, &table(n), &LegTable::empty(n))
        })
    }

    /// The same networks, after a step that does not give none.
    fn stepped(self) -> Family {
        Family::new(self.name, move |rng, n| {
            let after = (self.make)(rng, n).after_step();
            after.expect("a step that does not give none")
        })
    }

    pub fn networks(&self, n: usize) -> impl Iterator<Item = Network> + '_ {
        let mut rng = Xorshift::new(7);
        (0..TABLES).map(move |_| (self.make)(&mut rng, n))
    }
}

pub fn groups(n: usize) -> [Group; 3] {
    let mut first = going_on(n);
    first.push(Family::named("path", path));
    let second = going_on(n).into_iter().map(Family::stepped).collect();
    let group = |name, families| Group { name, families };
    [
        group("no must-drive road", first),
        group("after a first step", second),
        group("must-drive roads given", with_must()),
    ]
}

/// The families on which a step without must-drive roads does not give none.
fn going_on(n: usize) -> Vec<Family> {
    let fits = |shape: &&Shape| shape.name != "knight's moves" || n == 64;
    let shapes = SHAPES.iter().chain(&SEARCHED).filter(fits);
    let two_way_shapes = shapes.filter(|shape| shape.ways == Ways::Both);
    let mut families: Vec<Family> = two_way_shapes.map(Family::drawn).collect();
    families.extend([
        Family::named("ladder", ladder),
        Family::named("two-way ring", |n| two_way(n, &ring(n).legs())),
        Family::named("three paths", |n| paths(n, 3)),
    ]);
    families
}

fn with_must() -> Vec<Family> {
    let two_paths = Family::new("three paths, two of them must-drive", |rng, n| {
        Network::numbered_at_random(rng, &paths(n, 3), &paths(n, 2))
    });
    let half_a_ring = Family::new(
        "ring with roads across, half of the ring must-drive",
        |rng, n| {
            let mut roads = ring(n).legs();
            let must: Vec<_> = roads.iter().copied().step_by(2).collect();
            for _ in 0..n / 2 {
                let i = rng.between(1, n);
                roads.push((i, (i + rng.between(2, n - 2) - 1) % n + 1));
            }
            Network::numbered_at_random(rng, &two_way(n, &roads), &two_way(n, &must))
        },
    );
    vec![two_paths, half_a_ring]
}

fn path(n: usize) -> LegTable {
    let roads: Vec<_> = (1..n).map(|i| (i, i + 1)).collect();
    two_way(n, &roads)
}

/// A ring, whose two halves are the sides, and the rungs between them.
fn ladder(n: usize) -> LegTable {
    let mut roads = ring(n).legs();
    roads.extend((2..n / 2).map(|i| (i, n + 1 - i)));
    two_way(n, &roads)
}

/// The first ones of three paths from station 1 to station n, which share out the others.
fn paths(n: usize, count: usize) -> LegTable {
    let mut roads = Vec::new();
    for first in 2..2 + count {
        let mut at = 1;
        for next in (first..n).step_by(3).chain([n]) {
            roads.push((at, next));
            at = next;
        }
    }
    two_way(n, &roads)
}
