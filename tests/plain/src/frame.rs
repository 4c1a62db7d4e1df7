//! "One byte of kind, then a body. The kind byte fixes the length."

pub const CLOCK: u8 = 0x01;
pub const WRITE_PRESENT_VALUE: u8 = 0x02;
pub const EMPTY_A_SLOT: u8 = 0x03;
pub const WRITE_PROPERTY: u8 = 0x04;
pub const READ_PROPERTY: u8 = 0x05;
pub const STOP: u8 = 0x10;
pub const FADE_TO: u8 = 0x11;
pub const FADE_TO_OVER: u8 = 0x12;
pub const RAMP_TO: u8 = 0x13;
pub const RAMP_TO_AT_RATE: u8 = 0x14;
pub const STEP_UP: u8 = 0x15;
pub const STEP_DOWN: u8 = 0x16;
pub const STEP_UP_BY: u8 = 0x17;
pub const STEP_DOWN_BY: u8 = 0x18;
pub const GOTO: u8 = 0x19;
pub const RELINQUISH: u8 = 0x1A;
/// Any of these commands in context tags (§1).
pub const TAGGED_COMMAND: u8 = 0x1B;

/// The paper's table of kinds and bytes; nothing for an unknown kind.
pub fn length_of_kind(kind: u8) -> Option<usize> {
    match kind {
        CLOCK => Some(7),
        EMPTY_A_SLOT | READ_PROPERTY => Some(14),
        STOP | STEP_UP | STEP_DOWN | RELINQUISH => Some(17),
        WRITE_PRESENT_VALUE | WRITE_PROPERTY => Some(18),
        FADE_TO | RAMP_TO | GOTO | STEP_UP_BY | STEP_DOWN_BY => Some(21),
        FADE_TO_OVER | RAMP_TO_AT_RATE => Some(25),
        TAGGED_COMMAND => Some(31),
        _ => None,
    }
}

/// The greatest time that six bytes hold.
pub const LAST_TIME: u64 = (1 << 48) - 1;

/// "Numbers are big-endian."
fn big_endian(bytes: &[u8]) -> u64 {
    bytes
        .iter()
        .fold(0, |number, byte| number * 256 + u64::from(*byte))
}

fn four_bytes(bytes: &[u8], from: usize) -> u32 {
    big_endian(&bytes[from..from + 4]) as u32
}

pub fn clock_time(bytes: &[u8]) -> u64 {
    big_endian(&bytes[1..7])
}

pub fn station(bytes: &[u8]) -> u8 {
    bytes[1]
}

pub fn number(bytes: &[u8]) -> u32 {
    four_bytes(bytes, 2)
}

pub fn time(bytes: &[u8]) -> u64 {
    big_endian(&bytes[6..12])
}

pub fn output(bytes: &[u8]) -> u8 {
    bytes[12]
}

/// The one byte after the output: the priority of kinds 02 and 03, the
/// property of kinds 04 and 05.
pub fn byte_field(bytes: &[u8]) -> u8 {
    bytes[13]
}

/// The four bytes after a priority or a property.
pub fn value_field(bytes: &[u8]) -> u32 {
    four_bytes(bytes, 14)
}

/// Field `index`, from 0, of a command: all of them have four bytes.
pub fn command_field(bytes: &[u8], index: usize) -> u32 {
    four_bytes(bytes, 13 + 4 * index)
}

/// What follows the common bytes of a tagged command: L, then 17 bytes (§1).
pub fn tagged_body(bytes: &[u8]) -> &[u8] {
    &bytes[13..]
}
