//! What holds of every sheet that is written: it gives its table again, the table
//! alone decides on its bytes, and another table has others.

use super::call::{Answer, Call};
use super::{draw, Found, Session};
use crate::card;
use crate::sheet::Opened;
use crate::state::WorkState;
use crate::written::WRITTEN_MOST;

/// Records of the sheets that made the round trip.
#[derive(Clone, Debug, Default, PartialEq, Eq)]
pub struct WrittenCounts {
    pub no_field: u64,
    pub fixed: u64,
    pub next_set: u64,
    pub empty_set: u64,
    pub round_trips: u64,
}

impl WrittenCounts {
    pub fn add(&mut self, other: &WrittenCounts) {
        self.no_field += other.no_field;
        self.fixed += other.fixed;
        self.next_set += other.next_set;
        self.empty_set += other.empty_set;
        self.round_trips += other.round_trips;
    }

    /// Is there a record of each kind?
    pub fn complete(&self) -> bool {
        let records = [self.no_field, self.fixed, self.next_set, self.empty_set];
        self.round_trips > 0 && !records.contains(&0)
    }

    /// Notes a sheet that gave its table.
    fn note(&mut self, sheet: &[u8]) {
        self.round_trips += 1;
        let mut records = &sheet[1..];
        loop {
            let (count, length) = match records {
                [] => return,
                [0, ..] => (&mut self.no_field, 1),
                [4, ..] => (&mut self.fixed, 2),
                [1, 0, 0, 0, 0, 0, 0, 0, 0, ..] => (&mut self.empty_set, 9),
                _ => (&mut self.next_set, 9),
            };
            *count += 1;
            records = &records[length..];
        }
    }
}

impl Session<'_> {
    /// Writes into buffers of every length that matters, then there and back.
    pub fn writes(&mut self) -> Found<()> {
        for length in draw::write_lengths(&self.state) {
            self.call(Call::Write { length })?;
        }
        self.round_trip()
    }

    /// Holds the sheet of the current state to what is said of all sheets. The
    /// following calls don't see it.
    fn round_trip(&mut self) -> Found<()> {
        let kept = self.state;
        let sheet = self.write_with_room()?.written().to_vec();
        self.open_again(&sheet)?;

        let elsewhere = draw::elsewhere(&mut self.rng, &kept);
        self.put(elsewhere);
        let answer = self.write_with_room()?;
        if answer.written() != sheet {
            return Err(self.difference("the same table has two sheets", &answer));
        }

        let one_leg_off = draw::one_leg_off(&mut self.rng, &kept);
        self.put(one_leg_off);
        let answer = self.write_with_room()?;
        if answer.written() == sheet {
            return Err(self.difference("two tables have the same sheet", &answer));
        }

        self.put(kept);
        self.counts.written.note(&sheet);
        Ok(())
    }

    fn write_with_room(&mut self) -> Found<Answer> {
        let length = WRITTEN_MOST;
        self.call(Call::Write { length })
    }

    /// Opens the sheet of the current state.
    fn open_again(&mut self, sheet: &[u8]) -> Found<()> {
        let limit = draw::good_limit(&mut self.rng);
        let expected = Answer::Opened(Opened {
            number: card::TAKEN,
            place: 0,
            state: WorkState::opened(&self.state.table(), limit),
        });
        let sheet = sheet.to_vec();
        let answer = self.call(Call::OpenWritten { limit, sheet })?;
        if answer != expected {
            return Err(self.difference(
                "the sheet gives another table than it was written of",
                &answer,
            ));
        }
        Ok(())
    }
}
