//! Reading and writing properties.

use crate::act::is_priority;
use crate::answer::{Answer, Refusal};
use crate::level::{
    bound_from_real, is_rate_or_step, level_from_real, real_from_level, whole_percent,
};
use crate::output::{Operation, Output, LONGEST_TIME, SHORTEST_TIME};
use crate::parameters::Parameters;

impl Output {
    pub fn write_property(
        &mut self,
        parameters: &Parameters,
        property: u8,
        value: u32,
    ) -> Result<Answer, Refusal> {
        let settings = &mut self.settings;
        let real = f32::from_bits(value);
        match property {
            0x01 => settings.relinquish_default = level_from_real(real)?,
            0x02 => settings.fade_time = whole_in(SHORTEST_TIME, parameters.longest_fade, value)?,
            0x03 => settings.ramp_rate = rate_or_step(real)?,
            0x04 => settings.step_increment = rate_or_step(real)?,
            0x05 => settings.blink_enable = whole_in(0, 1, value)? == 1,
            0x06 => settings.blink_time = whole_in(0, LONGEST_TIME, value)?,
            0x07 => settings.blink_warn_delay = whole_in(0, LONGEST_TIME, value)?,
            0x08 => {
                let minimum = bound_from_real(real)?;
                if minimum > settings.maximum {
                    return Err(Refusal::MinimumOverMaximum);
                }
                settings.minimum = minimum;
                self.movement = None;
            }
            0x09 => {
                let maximum = bound_from_real(real)?;
                if settings.minimum > maximum {
                    return Err(Refusal::MinimumOverMaximum);
                }
                settings.maximum = maximum;
                self.movement = None;
            }
            0x0A => {
                if !is_priority(value) {
                    return Err(Refusal::Priority);
                }
                settings.command_priority = value as u8;
            }
            0x0B => self.burning = u64::from(whole_in(0, 0, value)?),
            0x17 => {
                let active_value = level_from_real(real)?;
                if settings.inactive_value >= active_value {
                    return Err(Refusal::RelayValues);
                }
                settings.active_value = active_value;
            }
            0x18 => {
                let inactive_value = level_from_real(real)?;
                if inactive_value >= settings.active_value {
                    return Err(Refusal::RelayValues);
                }
                settings.inactive_value = inactive_value;
            }
            0x19 => settings.reverse = whole_in(0, 1, value)? == 1,
            _ => return Err(Refusal::Property),
        }
        Ok(Answer::Done)
    }

    /// Slots 1 to 6 are the fire panel's, and what they hold is not to be told
    /// from the light to the last unit either (§8).
    pub fn read_as_tenant(&self, now: u64, property: u8) -> Result<Answer, Refusal> {
        let level = match property {
            0x21..=0x26 => return Ok(Answer::Absent),
            0x0C => self.present_value(),
            0x0D => self.progress_value(now),
            _ => return self.read_property(now, property),
        };
        Ok(Answer::Value(level_bits(whole_percent(level))))
    }

    pub fn read_property(&self, now: u64, property: u8) -> Result<Answer, Refusal> {
        let settings = &self.settings;
        let value = match property {
            0x01 => Some(level_bits(settings.relinquish_default)),
            0x02 => Some(settings.fade_time),
            0x03 => Some(settings.ramp_rate.to_bits()),
            0x04 => Some(settings.step_increment.to_bits()),
            0x05 => Some(u32::from(settings.blink_enable)),
            0x06 => Some(settings.blink_time),
            0x07 => Some(settings.blink_warn_delay),
            0x08 => Some(level_bits(settings.minimum)),
            0x09 => Some(level_bits(settings.maximum)),
            0x0A => Some(u32::from(settings.command_priority)),
            0x0B => Some((self.burning / 1_000).min(u64::from(u32::MAX)) as u32),
            0x0C => Some(level_bits(self.present_value())),
            0x0D => Some(level_bits(self.progress_value(now))),
            0x0E => Some(u32::from(self.movement.is_some())),
            0x0F => Some(u32::from(self.last.operation.number())),
            0x10 => self.last.operation.level().map(f32::to_bits),
            0x11 => self.last.operation.rate().map(f32::to_bits),
            0x12 => self.last.operation.step().map(f32::to_bits),
            0x13 => self.last.operation.fade_time(),
            0x14 => self.last.duration,
            0x17 => Some(level_bits(settings.active_value)),
            0x18 => Some(level_bits(settings.inactive_value)),
            0x19 => Some(u32::from(settings.reverse)),
            0x1A => Some(u32::from(self.active)),
            0x1B => Some(u32::from(self.relay_is_on())),
            0x21..=0x30 => self.slot(property - 0x20).map(level_bits),
            _ => return Err(Refusal::Property),
        };
        Ok(value.map_or(Answer::Absent, Answer::Value))
    }
}

fn whole_in(least: u32, most: u32, value: u32) -> Result<u32, Refusal> {
    if (least..=most).contains(&value) {
        Ok(value)
    } else {
        Err(Refusal::WholeNumber)
    }
}

fn rate_or_step(real: f32) -> Result<f32, Refusal> {
    if is_rate_or_step(real) {
        Ok(real)
    } else {
        Err(Refusal::Real)
    }
}

fn level_bits(level: u32) -> u32 {
    real_from_level(level).to_bits()
}

impl Operation {
    /// The kind minus 10, hexadecimal.
    pub fn number(self) -> u8 {
        match self {
            Operation::Stop => 0x0,
            Operation::FadeTo { .. } => 0x1,
            Operation::FadeToOver { .. } => 0x2,
            Operation::RampTo { .. } => 0x3,
            Operation::RampToAtRate { .. } => 0x4,
            Operation::StepUp => 0x5,
            Operation::StepDown => 0x6,
            Operation::StepUpBy { .. } => 0x7,
            Operation::StepDownBy { .. } => 0x8,
            Operation::Goto { .. } => 0x9,
            Operation::Relinquish => 0xA,
        }
    }

    pub fn level(self) -> Option<f32> {
        match self {
            Operation::FadeTo { level }
            | Operation::FadeToOver { level, .. }
            | Operation::RampTo { level }
            | Operation::RampToAtRate { level, .. }
            | Operation::Goto { level } => Some(level),
            _ => None,
        }
    }

    pub fn rate(self) -> Option<f32> {
        match self {
            Operation::RampToAtRate { rate, .. } => Some(rate),
            _ => None,
        }
    }

    pub fn step(self) -> Option<f32> {
        match self {
            Operation::StepUpBy { step } | Operation::StepDownBy { step } => Some(step),
            _ => None,
        }
    }

    pub fn fade_time(self) -> Option<u32> {
        match self {
            Operation::FadeToOver { fade_time, .. } => Some(fade_time),
            _ => None,
        }
    }
}
