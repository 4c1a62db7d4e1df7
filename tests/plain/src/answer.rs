//! "The answer is Done, a Value of 32 bits, Absent, or Refused with a number."

#[derive(Clone, Copy, Debug, PartialEq, Eq)]
pub enum Answer {
    Done,
    Value(u32),
    Absent,
    Refused(u8),
}

pub const NO_BYTE_OR_UNKNOWN_KIND: u8 = 2;
pub const WRONG_LENGTH: u8 = 3;
pub const STATION_OR_NUMBER: u8 = 4;
pub const OUTPUT_NOT_IN_TABLE: u8 = 5;
pub const LAST_NUMBER_OTHER_BYTES: u8 = 6;
pub const NUMBER_BELOW_LAST: u8 = 7;
pub const TIME_BEFORE_PANEL_TIME: u8 = 8;
pub const PROPERTY: u8 = 9;
pub const PRIORITY: u8 = 10;
pub const REAL: u8 = 11;
pub const WHOLE_NUMBER: u8 = 12;
pub const MINIMUM_OVER_MAXIMUM: u8 = 13;
/// §1: "L, tag, tag order, tag length or padding wrong, or an operation above
/// 10."
pub const TAGGING: u8 = 14;
/// §1: "Field missing, foreign, or not in fewest octets."
pub const TAGGED_FIELD: u8 = 15;
/// §3: "A write to 17 or 18 that would leave the inactive value not below the
/// active one."
pub const INACTIVE_NOT_BELOW_ACTIVE: u8 = 16;
/// §6: "A start with a parameter out of range."
pub const PARAMETER: u8 = 17;
