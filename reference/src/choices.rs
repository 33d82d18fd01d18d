//! Out- and in-choices on a separator.
//!
//! A choice exists just when every station has some mark to take and the
//! components can be handed to different stations: stations left over take any
//! of their marks. A station with a bare mark can take it just when the
//! components can be handed to the others. [`literal`] tries every choice
//! instead.

use std::collections::{BTreeMap, BTreeSet};

use crate::graph::reached_inside;
use crate::table::{Leg, LegTable};

#[derive(Clone, Copy, Debug, PartialEq, Eq, PartialOrd, Ord)]
pub enum Mark {
    Bare,
    /// A component, by its index in the list of components.
    Component(usize),
}

#[derive(Clone, Copy, Debug, PartialEq, Eq)]
pub enum Direction {
    Out,
    In,
}

impl Direction {
    pub const BOTH: [Direction; 2] = [Direction::Out, Direction::In];

    /// The station of a pair that takes one of its marks.
    fn chooser(self, (i, j): Leg) -> usize {
        match self {
            Direction::Out => i,
            Direction::In => j,
        }
    }
}

/// The ordered pairs of a separator with the marks that stand on them.
#[derive(Clone, Debug)]
pub struct SeparatorGraph {
    pub separator: BTreeSet<usize>,
    pub component_count: usize,
    pub marks: BTreeMap<Leg, BTreeSet<Mark>>,
}

impl SeparatorGraph {
    pub fn new(
        table: &LegTable,
        separator: &BTreeSet<usize>,
        components: &[BTreeSet<usize>],
    ) -> SeparatorGraph {
        SeparatorGraph::by_ways(table, separator, components, reached_inside)
    }

    /// Marks by ways of another kind: `reached` gets a component and a station c of
    /// it, and tells which stations d of it count as reached from c.
    pub fn by_ways(
        table: &LegTable,
        separator: &BTreeSet<usize>,
        components: &[BTreeSet<usize>],
        reached: impl Fn(&LegTable, &BTreeSet<usize>, usize) -> BTreeSet<usize>,
    ) -> SeparatorGraph {
        // The other stations of a component are no way in.
        let entered = |c: &&usize| separator.iter().any(|&i| table.has(i, **c));
        let ways_inside = |component: &BTreeSet<usize>| {
            let from = |&c: &usize| (c, reached(table, component, c));
            component.iter().filter(entered).map(from).collect()
        };
        let ways: Vec<Ways> = components.iter().map(ways_inside).collect();
        let mut marks = BTreeMap::new();
        for &i in separator {
            for &j in separator.iter().filter(|&&j| j != i) {
                marks.insert((i, j), marks_on(table, &ways, (i, j)));
            }
        }
        SeparatorGraph {
            separator: separator.clone(),
            component_count: components.len(),
            marks,
        }
    }

    /// The legs inside the separator that some out-choice takes bare and some
    /// in-choice takes bare; nothing if one of the two kinds has no choice.
    pub fn bare_legs(&self) -> Option<BTreeSet<Leg>> {
        let out = self.legs_taken_bare(Direction::Out)?;
        let into = self.legs_taken_bare(Direction::In)?;
        Some(&out & &into)
    }

    /// The legs that some choice takes bare, or nothing if there is no choice.
    pub fn legs_taken_bare(&self, direction: Direction) -> Option<BTreeSet<Leg>> {
        let offers = self.offers(direction);
        if offers.values().any(BTreeSet::is_empty) || !matches(&offers, self.component_count, None)
        {
            return None;
        }
        let spare: BTreeSet<usize> = self
            .separator
            .iter()
            .copied()
            .filter(|&station| matches(&offers, self.component_count, Some(station)))
            .collect();
        let taken = self
            .bare_pairs()
            .filter(|&pair| spare.contains(&direction.chooser(pair)));
        Some(taken.collect())
    }

    fn bare_pairs(&self) -> impl Iterator<Item = Leg> + '_ {
        self.marks
            .iter()
            .filter(|(_, marks)| marks.contains(&Mark::Bare))
            .map(|(&pair, _)| pair)
    }

    /// For each station of the separator, the marks on the pairs it chooses from.
    pub fn offers(&self, direction: Direction) -> BTreeMap<usize, BTreeSet<Mark>> {
        let mut offers: BTreeMap<usize, BTreeSet<Mark>> = self
            .separator
            .iter()
            .map(|&station| (station, BTreeSet::new()))
            .collect();
        for (&pair, marks) in &self.marks {
            let chooser = direction.chooser(pair);
            offers.entry(chooser).or_default().extend(marks);
        }
        offers
    }
}

/// For each station of a component, the stations of it that are reached from there.
type Ways = BTreeMap<usize, BTreeSet<usize>>;

fn marks_on(table: &LegTable, ways: &[Ways], (i, j): Leg) -> BTreeSet<Mark> {
    let mut marks = BTreeSet::new();
    if table.has(i, j) {
        marks.insert(Mark::Bare);
    }
    for (index, ways) in ways.iter().enumerate() {
        if leads_through(table, ways, (i, j)) {
            marks.insert(Mark::Component(index));
        }
    }
    marks
}

/// Are there stations c and d of the component with legs i→c and d→j, and d is
/// reached from c?
fn leads_through(table: &LegTable, ways: &Ways, (i, j): Leg) -> bool {
    ways.iter()
        .any(|(&c, reached)| table.has(i, c) && reached.iter().any(|&d| table.has(d, j)))
}

/// Whether every component can be handed to a station of its own that offers
/// it, leaving out the barred station.
fn matches(
    offers: &BTreeMap<usize, BTreeSet<Mark>>,
    component_count: usize,
    barred: Option<usize>,
) -> bool {
    let mut holders = BTreeMap::new();
    (0..component_count).all(|component| {
        let mut tried = BTreeSet::from_iter(barred);
        augment(offers, component, &mut holders, &mut tried)
    })
}

/// Finds a station for one more component, moving others along a path that
/// ends at a station without a component.
fn augment(
    offers: &BTreeMap<usize, BTreeSet<Mark>>,
    component: usize,
    holders: &mut BTreeMap<usize, usize>,
    tried: &mut BTreeSet<usize>,
) -> bool {
    for (&station, marks) in offers {
        if !marks.contains(&Mark::Component(component)) || !tried.insert(station) {
            continue;
        }
        let can_hold = match holders.get(&station).copied() {
            None => true,
            Some(held) => augment(offers, held, holders, tried),
        };
        if can_hold {
            holders.insert(station, component);
            return true;
        }
    }
    false
}

/// The definition of choices word by word, for small separators.
pub mod literal {
    use super::{Direction, Leg, Mark, SeparatorGraph};
    use std::collections::BTreeSet;

    /// Tries every choice; the answer has the meaning of
    /// [`SeparatorGraph::legs_taken_bare`].
    pub fn legs_taken_bare(graph: &SeparatorGraph, direction: Direction) -> Option<BTreeSet<Leg>> {
        let options: Vec<Vec<(Leg, Mark)>> = graph
            .separator
            .iter()
            .map(|&station| options_of(graph, direction, station))
            .collect();
        let mut taken = None;
        try_all(graph.component_count, &options, &mut Vec::new(), &mut taken);
        taken
    }

    /// Every pair that the station chooses from with every mark on it.
    fn options_of(
        graph: &SeparatorGraph,
        direction: Direction,
        station: usize,
    ) -> Vec<(Leg, Mark)> {
        graph
            .marks
            .iter()
            .filter(|(&pair, _)| direction.chooser(pair) == station)
            .flat_map(|(&pair, marks)| marks.iter().map(move |&mark| (pair, mark)))
            .collect()
    }

    fn try_all(
        component_count: usize,
        options: &[Vec<(Leg, Mark)>],
        choice: &mut Vec<(Leg, Mark)>,
        taken: &mut Option<BTreeSet<Leg>>,
    ) {
        if choice.len() == options.len() {
            if uses_every_component(component_count, choice) {
                let bare = choice.iter().filter(|(_, mark)| *mark == Mark::Bare);
                taken
                    .get_or_insert_with(BTreeSet::new)
                    .extend(bare.map(|&(pair, _)| pair));
            }
            return;
        }
        for &option in &options[choice.len()] {
            choice.push(option);
            try_all(component_count, options, choice, taken);
            choice.pop();
        }
    }

    fn uses_every_component(component_count: usize, choice: &[(Leg, Mark)]) -> bool {
        (0..component_count).all(|index| {
            choice
                .iter()
                .any(|&(_, mark)| mark == Mark::Component(index))
        })
    }
}
