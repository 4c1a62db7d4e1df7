//! Kinds 04 and 05: writing and reading a property.

use crate::answer::{self, Answer};
use crate::output::Output;
use crate::parameters::Parameters;
use crate::real;
use crate::settings::*;
use crate::slots::is_priority;

const REFUSED_PROPERTY: Answer = Answer::Refused(answer::PROPERTY);
const REFUSED_REAL: Answer = Answer::Refused(answer::REAL);
const REFUSED_WHOLE_NUMBER: Answer = Answer::Refused(answer::WHOLE_NUMBER);

impl Output {
    /// Kind 04.
    pub fn write_property(&mut self, parameters: &Parameters, property: u8, value: u32) -> Answer {
        let answer = self.store_property(parameters, property, value);
        // "Writing 08 or 09 ends the movement."
        if matches!(property, MINIMUM | MAXIMUM) && answer == Answer::Done {
            self.movement = None;
        }
        answer
    }

    /// "Property unknown, or not writable" is met before the value.
    fn store_property(&mut self, parameters: &Parameters, property: u8, value: u32) -> Answer {
        match property {
            RELINQUISH_DEFAULT => match real::level(value) {
                Some(level) => self.settings.relinquish_default = level,
                None => return REFUSED_REAL,
            },
            FADE_TIME if !parameters.is_fade_time(value) => return REFUSED_WHOLE_NUMBER,
            FADE_TIME => self.settings.fade_time = value,
            RAMP_RATE => match real::rate_or_step(value) {
                Some(_) => self.settings.ramp_rate = value,
                None => return REFUSED_REAL,
            },
            STEP_INCREMENT => match real::rate_or_step(value) {
                Some(_) => self.settings.step_increment = value,
                None => return REFUSED_REAL,
            },
            BLINK_ENABLE => match value {
                0 => self.settings.blink_enable = false,
                1 => self.settings.blink_enable = true,
                _ => return REFUSED_WHOLE_NUMBER,
            },
            // The set does not bound these two: §6, "blink times aside".
            BLINK_TIME => match value {
                0..=LONGEST => self.settings.blink_time = value,
                _ => return REFUSED_WHOLE_NUMBER,
            },
            BLINK_WARN_DELAY => match value {
                0..=LONGEST => self.settings.blink_warn_delay = value,
                _ => return REFUSED_WHOLE_NUMBER,
            },
            MINIMUM => {
                return match real::bound(value) {
                    Some(minimum) => self.set_bounds(minimum, self.settings.maximum),
                    None => REFUSED_REAL,
                }
            }
            MAXIMUM => {
                return match real::bound(value) {
                    Some(maximum) => self.set_bounds(self.settings.minimum, maximum),
                    None => REFUSED_REAL,
                }
            }
            // "Writing 0A meets 10."
            LIGHTING_COMMAND_PRIORITY if !is_priority(value) => {
                return Answer::Refused(answer::PRIORITY)
            }
            LIGHTING_COMMAND_PRIORITY => self.settings.lighting_command_priority = value as u8,
            // "0B Elapsed_Active_Time, written only with 0."
            ELAPSED_ACTIVE_TIME if value != 0 => return REFUSED_WHOLE_NUMBER,
            ELAPSED_ACTIVE_TIME => self.burning = 0,
            BINARY_ACTIVE_VALUE => {
                return match real::level(value) {
                    Some(active) => {
                        self.set_relay_values(active, self.settings.binary_inactive_value)
                    }
                    None => REFUSED_REAL,
                }
            }
            BINARY_INACTIVE_VALUE => {
                return match real::level(value) {
                    Some(inactive) => {
                        self.set_relay_values(self.settings.binary_active_value, inactive)
                    }
                    None => REFUSED_REAL,
                }
            }
            POLARITY => match value {
                0 => self.settings.polarity_reverse = false,
                1 => self.settings.polarity_reverse = true,
                _ => return REFUSED_WHOLE_NUMBER,
            },
            _ => return REFUSED_PROPERTY,
        }
        Answer::Done
    }

    fn set_bounds(&mut self, minimum: u32, maximum: u32) -> Answer {
        if minimum > maximum {
            return Answer::Refused(answer::MINIMUM_OVER_MAXIMUM);
        }
        self.settings.minimum = minimum;
        self.settings.maximum = maximum;
        Answer::Done
    }

    /// Kind 05, of a station with this mark.
    pub fn read_property_by(&self, tenant: bool, property: u8) -> Answer {
        match tenant {
            true => self.read_property_by_tenant(property),
            false => self.read_property(property),
        }
    }

    /// §8: "A tenant reading slots 1 to 6 gets Absent, and reads Present_Value
    /// and Progress_Value rounded down to whole percent."
    fn read_property_by_tenant(&self, property: u8) -> Answer {
        let in_whole_percent =
            |level| Answer::Value(real::level_as_real(real::whole_percent(level)));
        match property {
            FIRST_SLOT..=LAST_HIDDEN_SLOT => Answer::Absent,
            PRESENT_VALUE => in_whole_percent(self.present_value()),
            PROGRESS_VALUE => in_whole_percent(self.progress_value()),
            _ => self.read_property(property),
        }
    }

    /// Kind 05 of a service station.
    pub fn read_property(&self, property: u8) -> Answer {
        let settings = &self.settings;
        let value = match property {
            RELINQUISH_DEFAULT => Some(real::level_as_real(settings.relinquish_default)),
            FADE_TIME => Some(settings.fade_time),
            RAMP_RATE => Some(settings.ramp_rate),
            STEP_INCREMENT => Some(settings.step_increment),
            BLINK_ENABLE => Some(u32::from(settings.blink_enable)),
            BLINK_TIME => Some(settings.blink_time),
            BLINK_WARN_DELAY => Some(settings.blink_warn_delay),
            MINIMUM => Some(real::level_as_real(settings.minimum)),
            MAXIMUM => Some(real::level_as_real(settings.maximum)),
            LIGHTING_COMMAND_PRIORITY => Some(u32::from(settings.lighting_command_priority)),
            ELAPSED_ACTIVE_TIME => Some(self.elapsed_active_time()),
            PRESENT_VALUE => Some(real::level_as_real(self.present_value())),
            PROGRESS_VALUE => Some(real::level_as_real(self.progress_value())),
            IN_PROCESS => Some(u32::from(self.movement.is_some())),
            LAST_OPERATION => Some(u32::from(self.last.operation)),
            LAST_LEVEL => self.last.level,
            LAST_RATE => self.last.rate,
            LAST_STEP => self.last.step,
            LAST_FADE_TIME => self.last.fade_time,
            LAST_DURATION => self.last.duration,
            BINARY_ACTIVE_VALUE => Some(real::level_as_real(settings.binary_active_value)),
            BINARY_INACTIVE_VALUE => Some(real::level_as_real(settings.binary_inactive_value)),
            POLARITY => Some(u32::from(settings.polarity_reverse)),
            BINARY_PRESENT_VALUE => Some(u32::from(self.active)),
            RELAY_STATE => Some(u32::from(self.relay_state())),
            FIRST_SLOT..=LAST_SLOT => self
                .slot(property - FIRST_SLOT + 1)
                .map(real::level_as_real),
            _ => return REFUSED_PROPERTY,
        };
        value.map_or(Answer::Absent, Answer::Value)
    }

    /// "Elapsed_Active_Time reads floor(burning / 1,000), at most
    /// 4,294,967,295."
    fn elapsed_active_time(&self) -> u32 {
        u32::try_from(self.burning / 1_000).unwrap_or(u32::MAX)
    }
}
