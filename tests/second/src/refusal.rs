//! The numbers given for refusal, under the names used in this package.

/// Not a refusal: the call is done.
pub const DONE: u8 = 0;
pub const LENGTH: u8 = 1;
pub const SPARE_BIT: u8 = 2;
pub const COUNTS: u8 = 3;
pub const KIND: u8 = 4;
pub const LEFT_OR_RIGHT: u8 = 5;
pub const BOUNDED_AND_TIME: u8 = 6;
pub const RECORD: u8 = 7;
pub const DOES_NOT_EXIST: u8 = 8;
pub const NOT_ENABLED: u8 = 10;
pub const DUE: u8 = 11;
pub const CHECK_REJECTS: u8 = 12;
pub const NO_START_DISCHARGES: u8 = 13;
pub const TOO_LONG_OR_SHORT: u8 = 14;
pub const STEP: u8 = 15;
