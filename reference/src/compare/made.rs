//! The sheets to compare on, with what is known of them beforehand.

use super::valleys::{self, TellingTable};
use crate::card::Number;
use crate::gen::{self, damaged, last_seed_alone, long_runs};
use crate::gen::{plant_round, random, wide_islands};
use crate::gen::{Family, Sheet, Xorshift};
use crate::table::{Leg, LegTable};

pub struct Made {
    pub bytes: Vec<u8>,
    pub known: Known,
    /// A round that was put into the table: entry i−1 follows station i.
    pub round: Option<Vec<usize>>,
    pub kind: Kind,
}

/// What the table is made for.
#[derive(Clone, Copy, Debug, PartialEq, Eq)]
pub enum Kind {
    Any,
    /// The levels of a pass often say nothing, although some stations are out of reach.
    Islands,
    /// Passes often go on after striking legs.
    Striking,
    /// The pass with this seed tells whether marks ask for a way inside their component.
    Valleys {
        seed: u64,
    },
}

/// What opening the sheet must give.
pub enum Known {
    Nothing,
    Table(LegTable),
    Refusal { number: Number, place: usize },
}

impl Made {
    /// Every fourth sheet is damaged, with each number in turn. Every sixteenth one is of
    /// valleys and every 64th one of the last seed: few other tables tell what theirs do.
    pub fn new(rng: &mut Xorshift, index: u64) -> Made {
        match index % 16 {
            _ if index % 64 == 57 => sheet_of_the_last_seed(rng),
            3 | 7 | 11 | 15 => damaged_sheet(rng, 1 + (index / 4 % 5) as Number),
            5 => sheet_of_valleys(rng),
            _ if rng.percent(10) => random_sheet(rng),
            _ if rng.percent(8) => sheet_of_islands(rng),
            _ if rng.percent(6) => striking_sheet(rng),
            _ if rng.percent(2) => sheet_of_a_long_run(rng),
            _ => sheet_of_table(rng),
        }
    }
}

/// Small tables have the most surprises; large ones reach the last bits.
fn size(rng: &mut Xorshift) -> usize {
    match rng.below(20) {
        0..=9 => rng.between(2, 8),
        10..=14 => rng.between(9, 24),
        15..=17 => rng.between(25, 64),
        _ => rng.pick(&[31, 32, 33, 63, 64, 64]),
    }
}

fn random_sheet(rng: &mut Xorshift) -> Made {
    let n = size(rng);
    Made {
        bytes: Sheet::random(rng, n).bytes(),
        known: Known::Nothing,
        round: None,
        kind: Kind::Any,
    }
}

fn sheet_of_islands(rng: &mut Xorshift) -> Made {
    let n = size(rng);
    let table = wide_islands(rng, n);
    Made {
        bytes: any_sheet(rng, &table).bytes(),
        known: Known::Table(table),
        round: None,
        kind: Kind::Islands,
    }
}

/// Few stations, as many calls are made on it.
fn striking_sheet(rng: &mut Xorshift) -> Made {
    let n = rng.between(6, 12);
    let family = rng.pick(&Family::WITH_STRIKING_LEVELS);
    let table = family.table(rng, n);
    Made {
        bytes: any_sheet(rng, &table).bytes(),
        known: Known::Table(table),
        round: None,
        kind: Kind::Striking,
    }
}

/// A run that leaves out the last pass would end stable too soon.
fn sheet_of_the_last_seed(rng: &mut Xorshift) -> Made {
    let table = last_seed_alone(rng);
    Made {
        bytes: any_sheet(rng, &table).bytes(),
        known: Known::Table(table),
        round: None,
        kind: Kind::Any,
    }
}

/// One of the tables whose runs come nearest to their ceilings, under its own names:
/// with others the run may be short.
fn sheet_of_a_long_run(rng: &mut Xorshift) -> Made {
    let tables = long_runs();
    let table = tables[rng.below(tables.len())].clone();
    Made {
        bytes: any_sheet(rng, &table).bytes(),
        known: Known::Table(table),
        round: None,
        kind: Kind::Any,
    }
}

/// Mostly few stations, as tables that tell are looked for.
fn sheet_of_valleys(rng: &mut Xorshift) -> Made {
    let n = match rng.below(50) {
        0..=44 => rng.between(6, valleys::MOST_STATIONS),
        45..=48 => rng.between(valleys::MOST_STATIONS + 1, 24),
        _ => rng.between(25, 64),
    };
    let TellingTable { table, round, seed } = TellingTable::drawn(rng, n);
    Made {
        bytes: any_sheet(rng, &table).bytes(),
        known: Known::Table(table),
        round,
        kind: Kind::Valleys { seed },
    }
}

fn sheet_of_table(rng: &mut Xorshift) -> Made {
    let n = size(rng);
    let mut table = any_table(rng, n);
    let round = rng.percent(40).then(|| plant_round(rng, &mut table));
    if let Some(round) = round.as_ref().filter(|_| rng.percent(30)) {
        decide_stations(rng, &mut table, round);
    }
    Made {
        bytes: any_sheet(rng, &table).bytes(),
        known: Known::Table(table),
        round,
        kind: Kind::Any,
    }
}

/// A sheet that gives a table, by fields of any kind.
fn any_sheet(rng: &mut Xorshift, table: &LegTable) -> Sheet {
    match rng.below(4) {
        0 => Sheet::of(table),
        1 => Sheet::of_by_previous(table),
        _ => Sheet::mixed(rng, table),
    }
}

fn any_table(rng: &mut Xorshift, n: usize) -> LegTable {
    if rng.percent(6) {
        let density = rng.between(2, 98);
        return random(rng, n, density);
    }
    gen::any_table(rng, n)
}

/// Leaves some stations with their leg of the round alone.
fn decide_stations(rng: &mut Xorshift, table: &mut LegTable, round: &[usize]) {
    let decided = rng.pick(&[10, 30, 70]);
    for (at, &next) in round.iter().enumerate() {
        if rng.percent(decided) {
            let others = table.successors(at + 1).iter().filter(|&&j| j != next);
            let others: Vec<Leg> = others.map(|&j| (at + 1, j)).collect();
            table.strike(&others);
        }
    }
}

fn damaged_sheet(rng: &mut Xorshift, number: Number) -> Made {
    if rng.percent(5) {
        return noise(rng);
    }
    let n = size(rng);
    let sheet = Sheet::random(rng, n);
    let mut damaged = damaged(rng, &sheet, number);
    let mut known = Known::Refusal {
        number: damaged.number,
        place: damaged.place,
    };
    // A second fault, for the order of the checks.
    if rng.percent(25) && !damaged.bytes.is_empty() {
        let at = rng.below(damaged.bytes.len());
        damaged.bytes[at] ^= 1 << rng.below(8);
        known = Known::Nothing;
    }
    Made {
        bytes: damaged.bytes,
        known,
        round: None,
        kind: Kind::Any,
    }
}

/// Bytes without any form.
fn noise(rng: &mut Xorshift) -> Made {
    let bytes = (0..rng.below(40)).map(|_| rng.below(256) as u8);
    Made {
        bytes: bytes.collect(),
        known: Known::Nothing,
        round: None,
        kind: Kind::Any,
    }
}
