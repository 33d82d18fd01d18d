//! Opening: the sheet is read from left to right, and the first fault is the
//! answer.

use std::collections::BTreeSet;

use crate::card::{self, Number};
use crate::state::{self, WorkState};
use crate::table::{stations_of, LegTable};

#[derive(Clone, Copy, Debug, PartialEq, Eq)]
pub struct Opened {
    pub number: Number,
    pub place: u64,
    pub state: WorkState,
}

pub fn open(sheet: &[u8], limit: u64) -> Opened {
    if !state::good_limit(limit) {
        return refused(Fault {
            number: card::BAD_LIMIT,
            place: 0,
        });
    }
    match decode(sheet) {
        Ok(table) => Opened {
            number: card::TAKEN,
            place: 0,
            state: WorkState::opened(&table, limit),
        },
        Err(fault) => refused(fault),
    }
}

fn refused(fault: Fault) -> Opened {
    Opened {
        number: fault.number,
        place: fault.place as u64,
        state: WorkState::BLANK,
    }
}

struct Fault {
    number: Number,
    place: usize,
}

/// What one station's record allows, absent fields filled in.
struct Record {
    next: BTreeSet<usize>,
    previous: BTreeSet<usize>,
    fixed: Option<usize>,
}

fn decode(sheet: &[u8]) -> Result<LegTable, Fault> {
    let mut reader = Reader { sheet, at: 0 };
    let n = reader.count()?;
    let mut records = Vec::new();
    for _ in 1..=n {
        records.push(reader.record(n)?);
    }
    reader.finish()?;
    Ok(table_of(&records))
}

fn table_of(records: &[Record]) -> LegTable {
    let mut table = LegTable::empty(records.len());
    for i in table.stations() {
        for j in table.stations() {
            let (from, to) = (&records[i - 1], &records[j - 1]);
            let fixed_elsewhere = from.fixed.is_some_and(|station| station != j);
            if i != j && from.next.contains(&j) && to.previous.contains(&i) && !fixed_elsewhere {
                table.add(i, j);
            }
        }
    }
    table
}

struct Reader<'a> {
    sheet: &'a [u8],
    at: usize,
}

impl<'a> Reader<'a> {
    fn count(&mut self) -> Result<usize, Fault> {
        let n = self.byte()?;
        if (2..=64).contains(&n) {
            Ok(usize::from(n))
        } else {
            Err(Fault {
                number: card::BAD_COUNT,
                place: 0,
            })
        }
    }

    fn record(&mut self, n: usize) -> Result<Record, Fault> {
        let map = self.map()?;
        let all: BTreeSet<usize> = (1..=n).collect();
        Ok(Record {
            next: match map & 0b001 {
                0 => all.clone(),
                _ => self.set(n)?,
            },
            previous: match map & 0b010 {
                0 => all,
                _ => self.set(n)?,
            },
            fixed: match map & 0b100 {
                0 => None,
                _ => Some(self.fixed(n)?),
            },
        })
    }

    fn map(&mut self) -> Result<u8, Fault> {
        let place = self.at;
        let map = self.byte()?;
        if map > 0b111 {
            return Err(Fault {
                number: card::UNKNOWN_BIT,
                place,
            });
        }
        Ok(map)
    }

    fn set(&mut self, n: usize) -> Result<BTreeSet<usize>, Fault> {
        let place = self.at;
        let mut bytes = [0; 8];
        bytes.copy_from_slice(self.bytes(8)?);
        let stations = stations_of(u64::from_le_bytes(bytes));
        if stations.iter().any(|&k| k > n) {
            return Err(stray_station(place));
        }
        Ok(stations)
    }

    fn fixed(&mut self, n: usize) -> Result<usize, Fault> {
        let place = self.at;
        let station = usize::from(self.byte()?);
        if station == 0 || station > n {
            return Err(stray_station(place));
        }
        Ok(station)
    }

    fn finish(&self) -> Result<(), Fault> {
        if self.at < self.sheet.len() {
            return Err(Fault {
                number: card::OVERHANG,
                place: self.at,
            });
        }
        Ok(())
    }

    fn byte(&mut self) -> Result<u8, Fault> {
        Ok(self.bytes(1)?[0])
    }

    fn bytes(&mut self, count: usize) -> Result<&'a [u8], Fault> {
        let rest = &self.sheet[self.at..];
        if rest.len() < count {
            return Err(Fault {
                number: card::CUT_SHEET,
                place: self.sheet.len(),
            });
        }
        self.at += count;
        Ok(&rest[..count])
    }
}

fn stray_station(place: usize) -> Fault {
    Fault {
        number: card::STRAY_STATION,
        place,
    }
}
