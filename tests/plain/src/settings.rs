//! "Properties, with fresh values."

use crate::parameters::Parameters;
use crate::real::{HUNDRED_PERCENT, ONE_PERCENT};

pub const RELINQUISH_DEFAULT: u8 = 0x01;
pub const FADE_TIME: u8 = 0x02;
pub const RAMP_RATE: u8 = 0x03;
pub const STEP_INCREMENT: u8 = 0x04;
pub const BLINK_ENABLE: u8 = 0x05;
pub const BLINK_TIME: u8 = 0x06;
pub const BLINK_WARN_DELAY: u8 = 0x07;
pub const MINIMUM: u8 = 0x08;
pub const MAXIMUM: u8 = 0x09;
pub const LIGHTING_COMMAND_PRIORITY: u8 = 0x0A;
pub const ELAPSED_ACTIVE_TIME: u8 = 0x0B;
pub const PRESENT_VALUE: u8 = 0x0C;
pub const PROGRESS_VALUE: u8 = 0x0D;
pub const IN_PROCESS: u8 = 0x0E;
pub const LAST_OPERATION: u8 = 0x0F;
pub const LAST_LEVEL: u8 = 0x10;
pub const LAST_RATE: u8 = 0x11;
pub const LAST_STEP: u8 = 0x12;
pub const LAST_FADE_TIME: u8 = 0x13;
pub const LAST_DURATION: u8 = 0x14;
pub const BINARY_ACTIVE_VALUE: u8 = 0x17;
pub const BINARY_INACTIVE_VALUE: u8 = 0x18;
pub const POLARITY: u8 = 0x19;
pub const BINARY_PRESENT_VALUE: u8 = 0x1A;
/// "The relay's state (1B, read only)."
pub const RELAY_STATE: u8 = 0x1B;
pub const FIRST_SLOT: u8 = 0x21;
pub const LAST_SLOT: u8 = 0x30;
/// Slot 6, the last one that no tenant reads (§8).
pub const LAST_HIDDEN_SLOT: u8 = 0x26;

/// A day: the longest blink times, and the greatest longest duration that a
/// panel may be started with (§6).
pub const LONGEST: u32 = 86_400_000;
/// §7: "That becomes the greatest value of the longest fade parameter, of
/// Fade_Time and of every fade time."
pub const FOUR_HOURS: u32 = 14_400_000;
/// "Duration: 100 to 86,400,000 sets. Fade times: 100 to" the longest fade.
pub const SHORTEST: u32 = 100;
/// "FFFFFFFF means absent."
pub const ABSENT_DURATION: u32 = 0xFFFF_FFFF;

#[derive(Clone, Copy, Debug, PartialEq, Eq)]
pub struct Settings {
    pub relinquish_default: u32,
    pub fade_time: u32,
    /// "Ramp_Rate and Step_Increment are kept as REALs, bit for bit."
    pub ramp_rate: u32,
    pub step_increment: u32,
    pub blink_enable: bool,
    pub blink_time: u32,
    pub blink_warn_delay: u32,
    pub minimum: u32,
    pub maximum: u32,
    pub lighting_command_priority: u8,
    /// §3: the inactive value is below the active one.
    pub binary_active_value: u32,
    pub binary_inactive_value: u32,
    /// "Polarity (19, 0 normal, 1 reverse)."
    pub polarity_reverse: bool,
}

impl Settings {
    pub fn fresh(parameters: &Parameters) -> Settings {
        Settings {
            relinquish_default: 0,
            fade_time: parameters.fresh_fade_time(),
            ramp_rate: 10.0_f32.to_bits(),
            step_increment: 5.0_f32.to_bits(),
            blink_enable: false,
            blink_time: 0,
            blink_warn_delay: 0,
            minimum: ONE_PERCENT,
            maximum: HUNDRED_PERCENT,
            lighting_command_priority: 16,
            binary_active_value: 50 * ONE_PERCENT,
            binary_inactive_value: 45 * ONE_PERCENT,
            polarity_reverse: false,
        }
    }

    /// "Brought into Min..Max."
    pub fn into_range(&self, level: u32) -> u32 {
        level.max(self.minimum).min(self.maximum)
    }

    /// "If above zero it is brought into Min..Max."
    pub fn into_range_if_lit(&self, level: u32) -> u32 {
        if level > 0 {
            self.into_range(level)
        } else {
            0
        }
    }
}
