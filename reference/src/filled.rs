//! What every call does that fills a lent buffer: a report, a print, a written
//! sheet.

use crate::card::{self, Number};

#[derive(Clone, Copy, Debug, PartialEq, Eq)]
pub struct Filled {
    pub number: Number,
    pub length: u64,
}

impl Filled {
    pub fn refused(number: Number) -> Filled {
        Filled { number, length: 0 }
    }
}

/// Copies bytes to the start of the buffer, or nothing where they have no room.
pub fn fill(bytes: &[u8], buffer: &mut [u8]) -> Filled {
    fill_by(bytes.len(), buffer, |start| start.copy_from_slice(bytes))
}

/// The same for bytes that are made in place: `write` gets as many as they are.
#[inline]
pub fn fill_by(length: usize, buffer: &mut [u8], write: impl FnOnce(&mut [u8])) -> Filled {
    if buffer.len() < length {
        return Filled::refused(card::NO_ROOM);
    }
    write(&mut buffer[..length]);
    Filled {
        number: card::TAKEN,
        length: length as u64,
    }
}
