//! Frames: lengths, the common head, and the fields after it.

use crate::answer::Refusal;

pub const CLOCK: u8 = 0x01;
pub const HEAD_LENGTH: usize = 13;
pub const LONGEST_FRAME: usize = 31;

/// The length that the kind byte fixes.
pub fn length_of_kind(kind: u8) -> Option<usize> {
    Some(match kind {
        0x01 => 7,
        0x02 | 0x04 => 18,
        0x03 | 0x05 => 14,
        0x10 | 0x15 | 0x16 | 0x1A => 17,
        0x11 | 0x13 | 0x17..=0x19 => 21,
        0x12 | 0x14 => 25,
        0x1B => 31,
        _ => return None,
    })
}

/// Refusals 2 and 3.
pub fn check_kind_and_length(bytes: &[u8]) -> Result<u8, Refusal> {
    let kind = *bytes.first().ok_or(Refusal::Kind)?;
    let length = length_of_kind(kind).ok_or(Refusal::Kind)?;
    if bytes.len() == length {
        Ok(kind)
    } else {
        Err(Refusal::Length)
    }
}

/// What every frame but a clock begins with.
#[derive(Clone, Copy, Debug)]
pub struct Head {
    pub station: u8,
    pub number: u32,
    pub time: u64,
    pub output: u8,
}

impl Head {
    pub fn of(bytes: &[u8]) -> Head {
        Head {
            station: bytes[1],
            number: u32_at(bytes, 2),
            time: u48_at(bytes, 6),
            output: bytes[12],
        }
    }
}

pub fn clock_time(bytes: &[u8]) -> u64 {
    u48_at(bytes, 1)
}

pub fn u32_at(bytes: &[u8], at: usize) -> u32 {
    u32::from_be_bytes([bytes[at], bytes[at + 1], bytes[at + 2], bytes[at + 3]])
}

fn u48_at(bytes: &[u8], at: usize) -> u64 {
    let high = u64::from(u16::from_be_bytes([bytes[at], bytes[at + 1]]));
    high << 32 | u64::from(u32_at(bytes, at + 2))
}

/// Takes the four-byte fields of a command one after the other.
pub struct Fields<'a> {
    rest: &'a [u8],
}

impl<'a> Fields<'a> {
    pub fn after_head(bytes: &'a [u8]) -> Fields<'a> {
        Fields::of(&bytes[HEAD_LENGTH..])
    }

    pub fn of(rest: &'a [u8]) -> Fields<'a> {
        Fields { rest }
    }

    pub fn whole(&mut self) -> u32 {
        let value = u32_at(self.rest, 0);
        self.rest = &self.rest[4..];
        value
    }

    pub fn real(&mut self) -> f32 {
        f32::from_bits(self.whole())
    }
}
