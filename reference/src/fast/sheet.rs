//! Opening a sheet straight into words.

use super::bits::{all_stations, bit, transposed};
use crate::card::{self, Number};
use crate::sheet::Opened;
use crate::state::{good_limit, Rows, WorkState};

type Fault = (Number, usize);

pub fn open(sheet: &[u8], limit: u64) -> Opened {
    let (number, place) = if good_limit(limit) {
        match decode(sheet) {
            Ok((n, rows)) => {
                return Opened {
                    number: card::TAKEN,
                    place: 0,
                    state: WorkState {
                        n: n as u64,
                        rows,
                        limit,
                        ..WorkState::BLANK
                    },
                }
            }
            Err(fault) => fault,
        }
    } else {
        (card::BAD_LIMIT, 0)
    };
    Opened {
        number,
        place: place as u64,
        state: WorkState::BLANK,
    }
}

fn decode(sheet: &[u8]) -> Result<(usize, Rows), Fault> {
    let mut reader = Reader { sheet, at: 0 };
    let n = usize::from(reader.byte()?);
    if !(2..=64).contains(&n) {
        return Err((card::BAD_COUNT, 0));
    }
    let mut rows = [0; 64];
    let mut previous_sets = [0; 64];
    for i in 0..n {
        let (next, previous) = reader.record(n)?;
        rows[i] = next & !bit(i);
        previous_sets[i] = previous;
    }
    if reader.at < sheet.len() {
        return Err((card::OVERHANG, reader.at));
    }
    let allowed = transposed(&previous_sets, n);
    for (row, allowed) in rows.iter_mut().zip(&allowed) {
        *row &= allowed;
    }
    Ok((n, rows))
}

struct Reader<'a> {
    sheet: &'a [u8],
    at: usize,
}

impl Reader<'_> {
    /// The stations that may follow one station and that it may follow.
    #[inline]
    fn record(&mut self, n: usize) -> Result<(u64, u64), Fault> {
        let all = all_stations(n);
        let map = self.byte()?;
        if map > 7 {
            return Err((card::UNKNOWN_BIT, self.at - 1));
        }
        let mut next = if map & 1 == 0 { all } else { self.set(all)? };
        let previous = if map & 2 == 0 { all } else { self.set(all)? };
        if map & 4 != 0 {
            next &= self.fixed(n)?;
        }
        Ok((next, previous))
    }

    #[inline]
    fn set(&mut self, all: u64) -> Result<u64, Fault> {
        let bytes = self.sheet[self.at..].first_chunk();
        let set = u64::from_le_bytes(*bytes.ok_or(self.cut())?);
        if set & !all != 0 {
            return Err((card::STRAY_STATION, self.at));
        }
        self.at += 8;
        Ok(set)
    }

    #[inline]
    fn fixed(&mut self, n: usize) -> Result<u64, Fault> {
        let station = usize::from(self.byte()?);
        if station == 0 || station > n {
            return Err((card::STRAY_STATION, self.at - 1));
        }
        Ok(bit(station - 1))
    }

    #[inline]
    fn byte(&mut self) -> Result<u8, Fault> {
        let byte = self.sheet.get(self.at).ok_or(self.cut())?;
        self.at += 1;
        Ok(*byte)
    }

    #[inline]
    fn cut(&self) -> Fault {
        (card::CUT_SHEET, self.sheet.len())
    }
}
