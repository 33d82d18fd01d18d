//! The work state as it passes the boundary: raw words, so that a bad state can
//! be written down and refused.

use std::fmt;

use crate::table::LegTable;

/// Bit k−1 of word i−1 stands for the leg i→k.
pub type Rows = [u64; 64];

pub const FEWEST_STATIONS: u64 = 2;
pub const MOST_STATIONS: u64 = 64;
pub const SMALLEST_LIMIT: u64 = 1;
pub const LARGEST_LIMIT: u64 = 64;

#[derive(Clone, Copy, Debug, PartialEq, Eq)]
pub enum End {
    Open,
    Stable,
    None,
}

impl End {
    pub fn word(self) -> &'static str {
        match self {
            End::Open => "open",
            End::Stable => "stable",
            End::None => "none",
        }
    }
}

#[derive(Clone, Copy, Debug, PartialEq, Eq)]
pub struct WorkState {
    pub n: u64,
    pub rows: Rows,
    pub limit: u64,
    pub place: u64,
    pub mark: bool,
    pub end: End,
}

impl WorkState {
    /// What a refused opening hands back.
    pub const BLANK: WorkState = WorkState {
        n: 0,
        rows: [0; 64],
        limit: 0,
        place: 0,
        mark: false,
        end: End::Open,
    };

    /// What a taken opening hands back.
    pub fn opened(table: &LegTable, limit: u64) -> WorkState {
        WorkState {
            n: table.n() as u64,
            rows: table.rows(),
            limit,
            ..WorkState::BLANK
        }
    }

    /// The table of a state that is not bad.
    pub fn table(&self) -> LegTable {
        LegTable::from_rows(self.n as usize, &self.rows)
    }

    /// Bits set in all rows, also in rows that ought to be empty.
    pub fn legs(&self) -> u64 {
        leg_count(&self.rows)
    }
}

/// One line with all words of the state; empty rows are left out.
impl fmt::Display for WorkState {
    fn fmt(&self, out: &mut fmt::Formatter) -> fmt::Result {
        write!(
            out,
            "n {} limit {} place {} mark {} end {} legs {}",
            self.n,
            self.limit,
            self.place,
            u8::from(self.mark),
            self.end.word(),
            self.legs()
        )?;
        out.write_str(&rows_text(&self.rows))
    }
}

/// Bits set in all rows.
pub fn leg_count(rows: &Rows) -> u64 {
    rows.iter().map(|row| u64::from(row.count_ones())).sum()
}

/// The rows that are not empty, each after a space.
pub fn rows_text(rows: &Rows) -> String {
    let stations = (1..).zip(rows).filter(|(_, row)| **row != 0);
    stations
        .map(|(station, row)| format!(" {station}={row:016x}"))
        .collect()
}

pub fn good_limit(limit: u64) -> bool {
    (SMALLEST_LIMIT..=LARGEST_LIMIT).contains(&limit)
}

/// The place where a cycle ends: after the sweep at 0 and the chain step at 1
/// comes a pass from each station.
pub fn last_place(n: u64) -> u64 {
    n + 1
}

/// The steps of a cycle, one for each place.
pub fn cycle(n: u64) -> u32 {
    last_place(n) as u32 + 1
}

pub fn bad(state: &WorkState) -> bool {
    !(FEWEST_STATIONS..=MOST_STATIONS).contains(&state.n)
        || !good_limit(state.limit)
        || state.place > last_place(state.n)
        || has_stray_leg(state.n as usize, &state.rows)
}

/// A leg from or to a station beyond n, or from a station to itself.
fn has_stray_leg(n: usize, rows: &Rows) -> bool {
    (1..=64).any(|i| {
        (1..=64).any(|k| {
            let stands = rows[i - 1] >> (k - 1) & 1 == 1;
            stands && (i > n || k > n || i == k)
        })
    })
}
