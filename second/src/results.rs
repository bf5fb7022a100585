//! The numbers that a call gives as its result, in the paper's words.

pub const DONE: u8 = 0;
pub const BUFFER_TOO_SMALL: u8 = 1;
pub const WRONG_SIZES: u8 = 2;
pub const REQUEST_TOO_LONG: u8 = 3;
pub const CLOCK_ABOVE_LIMIT: u8 = 4;
pub const NOT_SOUND: u8 = 5;
pub const UNREADABLE: u8 = 6;
pub const ADDRESS_MALFORMED: u8 = 7;
pub const ADDRESS_THERE_ALREADY: u8 = 8;
pub const NO_UNUSED_RECORD: u8 = 9;
pub const NOT_KNOWN: u8 = 10;
pub const CLOCK_BELOW_LATEST: u8 = 11;
