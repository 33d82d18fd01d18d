//! The leg table as plain sets of station numbers.

use std::collections::BTreeSet;

use crate::state::Rows;

/// The leg (i, j) means that station j may follow station i.
pub type Leg = (usize, usize);

#[derive(Clone, Debug, PartialEq, Eq)]
pub struct LegTable {
    /// Entry 0 stays empty, so that station numbers serve as indices.
    successors: Vec<BTreeSet<usize>>,
}

impl LegTable {
    pub fn empty(n: usize) -> LegTable {
        LegTable {
            successors: vec![BTreeSet::new(); n + 1],
        }
    }

    pub fn full(n: usize) -> LegTable {
        let pairs = (1..=n).flat_map(|i| (1..=n).map(move |j| (i, j)));
        LegTable::from_legs(n, pairs.filter(|(i, j)| i != j))
    }

    pub fn from_legs(n: usize, legs: impl IntoIterator<Item = Leg>) -> LegTable {
        let mut table = LegTable::empty(n);
        for (i, j) in legs {
            table.add(i, j);
        }
        table
    }

    pub fn from_rows(n: usize, rows: &Rows) -> LegTable {
        let mut table = LegTable::empty(n);
        for i in 1..=n {
            table.successors[i] = stations_of(rows[i - 1]);
        }
        table
    }

    pub fn rows(&self) -> Rows {
        let mut rows = [0; 64];
        for (i, j) in self.legs() {
            rows[i - 1] |= 1 << (j - 1);
        }
        rows
    }

    pub fn n(&self) -> usize {
        self.successors.len() - 1
    }

    pub fn stations(&self) -> std::ops::RangeInclusive<usize> {
        1..=self.n()
    }

    pub fn has(&self, i: usize, j: usize) -> bool {
        self.successors[i].contains(&j)
    }

    pub fn successors(&self, i: usize) -> &BTreeSet<usize> {
        &self.successors[i]
    }

    pub fn predecessors(&self, j: usize) -> BTreeSet<usize> {
        self.stations().filter(|&i| self.has(i, j)).collect()
    }

    /// The stations that a leg joins to station i in either direction.
    pub fn neighbours(&self, i: usize) -> BTreeSet<usize> {
        self.successors(i) | &self.predecessors(i)
    }

    /// The words of the neighbours of all stations, as rows are.
    pub fn neighbour_words(&self) -> Rows {
        let mut words = [0; 64];
        for i in self.stations() {
            words[i - 1] = word_of(&self.neighbours(i));
        }
        words
    }

    /// All legs, by their first station and then by their second.
    pub fn legs(&self) -> Vec<Leg> {
        self.stations()
            .flat_map(|i| self.successors[i].iter().map(move |&j| (i, j)))
            .collect()
    }

    pub fn leg_count(&self) -> u64 {
        self.successors.iter().map(|row| row.len() as u64).sum()
    }

    pub fn add(&mut self, i: usize, j: usize) {
        self.successors[i].insert(j);
    }

    pub fn strike(&mut self, legs: &[Leg]) {
        for (i, j) in legs {
            self.successors[*i].remove(j);
        }
    }
}

/// The word in which the bits of the stations stand.
pub fn word_of(stations: &BTreeSet<usize>) -> u64 {
    stations.iter().fold(0, |word, k| word | 1 << (k - 1))
}

/// The stations whose bits stand in a word.
pub fn stations_of(word: u64) -> BTreeSet<usize> {
    (1..=64).filter(|k| word >> (k - 1) & 1 == 1).collect()
}
