//! The numbers on the radio card.

pub type Number = u8;

pub const TAKEN: Number = 0;
pub const CUT_SHEET: Number = 1;
pub const BAD_COUNT: Number = 2;
pub const UNKNOWN_BIT: Number = 3;
pub const STRAY_STATION: Number = 4;
pub const OVERHANG: Number = 5;
pub const BAD_LIMIT: Number = 6;
pub const BAD_WORK_STATE: Number = 7;
pub const STRAY_SEED: Number = 8;
pub const WRONG_LIST_LENGTH: Number = 9;
pub const NO_ROOM: Number = 10;
pub const NOT_TWO_WAY: Number = 11;
pub const STRAY_ROAD: Number = 12;
