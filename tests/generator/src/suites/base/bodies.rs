//! Bodies of the kinds of document 01, with any values or with good ones.

use events::edges::WIDE_PRIORITIES;
use events::words::COMMANDS;
use plain::frame::*;
use plain::real::level_as_real;
use plain::settings::*;

use crate::body::Body;
use crate::list::Generator;
use crate::random::Random;
use crate::values::{self, BAD_PRIORITIES, EDGE_TIMES, PRIORITIES};

/// Where the fields of a command come from.
#[derive(Clone, Copy)]
struct Draws {
    level: fn(&mut Random) -> u32,
    rate_or_step: fn(&mut Random) -> u32,
    fade_time: fn(&mut Random) -> u32,
    duration: fn(&mut Random) -> u32,
}

const ANY: Draws = Draws {
    level: values::level,
    rate_or_step: values::rate_or_step,
    fade_time: values::fade_time,
    duration: values::duration,
};

const GOOD: Draws = Draws {
    level: values::good_level,
    rate_or_step: values::usual_percentage,
    fade_time: values::short_time,
    duration: values::good_duration,
};

impl Generator {
    /// A body of any kind with any values.
    pub(crate) fn any_body(&mut self, output: u8) -> Body {
        match self.random.below(100) {
            0..=19 => self.any_write(),
            20..=29 => self.any_emptying(),
            30..=49 => self.any_property_write(output),
            50..=64 => self.any_read(),
            _ => {
                let kind = self.random.pick(&COMMANDS);
                self.any_command(kind)
            }
        }
    }

    fn any_priority(&mut self) -> u8 {
        if self.random.chance(90) {
            self.random.pick(&PRIORITIES)
        } else {
            self.random.pick(&BAD_PRIORITIES)
        }
    }

    pub(crate) fn any_write(&mut self) -> Body {
        Body::Write {
            priority: self.any_priority(),
            bits: values::level(&mut self.random),
        }
    }

    pub(crate) fn any_emptying(&mut self) -> Body {
        Body::Empty {
            priority: self.any_priority(),
        }
    }

    pub(crate) fn any_read(&mut self) -> Body {
        let property = match self.random.below(20) {
            0 => self.random.pick(self.suite.tables.unknown_properties),
            1 => self.random.bits() as u8,
            2..=6 => self.random.between(0x21, 0x30) as u8,
            7..=10 => self.random.pick(&[0x0B, 0x0C, 0x0D, 0x0E]),
            11..=12 if !self.suite.tables.more_properties.is_empty() => {
                self.random.pick(self.suite.tables.more_properties)
            }
            _ => self.random.between(0x01, 0x14) as u8,
        };
        Body::Read { property }
    }

    /// 0 or 1, now and then another number.
    pub(crate) fn any_bit(&mut self) -> u32 {
        match self.random.below(10) {
            0..=7 => self.random.below(2) as u32,
            8 => self.random.pick(&EDGE_TIMES),
            _ => self.random.bits() as u32,
        }
    }

    pub(crate) fn any_property_write(&mut self, output: u8) -> Body {
        if let Some(more_writes) = self.suite.tables.more_writes {
            if self.random.chance(15) {
                let (property, value) = more_writes(self, output);
                return Body::WriteProperty { property, value };
            }
        }
        let property = match self.random.below(20) {
            // Unknown ones, and the one that kind 02 writes.
            0 if self.random.chance(20) => PRESENT_VALUE,
            0 => self.random.pick(self.suite.tables.unknown_properties),
            1 if self.random.chance(30) => self.random.bits() as u8,
            1..=3 => self.random.between(0x0C, 0x30) as u8,
            4..=6 => self.random.pick(&[MINIMUM, MAXIMUM]),
            _ => self.random.between(0x01, 0x0B) as u8,
        };
        let value = match property {
            RELINQUISH_DEFAULT => values::level(&mut self.random),
            FADE_TIME => values::fade_time(&mut self.random),
            RAMP_RATE | STEP_INCREMENT => values::rate_or_step(&mut self.random),
            BLINK_ENABLE => self.any_bit(),
            BLINK_TIME | BLINK_WARN_DELAY => values::blink_time(&mut self.random),
            MINIMUM | MAXIMUM => self.any_bound(output),
            LIGHTING_COMMAND_PRIORITY => match self.random.below(10) {
                0 => self.random.pick(&[0, 6]),
                1 => self.random.pick(&WIDE_PRIORITIES),
                _ => self.random.between(0, 16) as u32,
            },
            ELAPSED_ACTIVE_TIME => match self.random.below(4) {
                0 | 1 => 0,
                2 => self.random.pick(&EDGE_TIMES),
                _ => self.random.bits() as u32,
            },
            _ => self.random.bits() as u32,
        };
        Body::WriteProperty { property, value }
    }

    /// A minimum or maximum, often beside the other one.
    fn any_bound(&mut self, output: u8) -> u32 {
        let settings = &self.output(output).settings;
        let (minimum, maximum) = (settings.minimum, settings.maximum);
        match self.random.below(10) {
            0 => level_as_real(self.random.pick(&[minimum, maximum])),
            1 => level_as_real(self.random.pick(&[minimum, maximum])) + 1,
            2 => level_as_real(self.random.pick(&[minimum, maximum])) - 1,
            // Back to the whole range, so that lists do not get stuck.
            3 => 0x3F80_0000,
            4 => 0x42C8_0000,
            _ => values::bound(&mut self.random),
        }
    }

    pub(crate) fn any_command(&mut self, kind: u8) -> Body {
        self.command_of(kind, ANY)
    }

    /// A command that is not refused.
    pub(crate) fn good_command(&mut self, kind: u8) -> Body {
        self.command_of(kind, GOOD)
    }

    fn command_of(&mut self, kind: u8, draws: Draws) -> Body {
        let random = &mut self.random;
        let mut fields = Vec::new();
        if matches!(
            kind,
            FADE_TO | FADE_TO_OVER | RAMP_TO | RAMP_TO_AT_RATE | GOTO
        ) {
            fields.push((draws.level)(random));
        }
        if matches!(kind, RAMP_TO_AT_RATE | STEP_UP_BY | STEP_DOWN_BY) {
            fields.push((draws.rate_or_step)(random));
        }
        if kind == FADE_TO_OVER {
            fields.push((draws.fade_time)(random));
        }
        fields.push((draws.duration)(random));
        Body::Command { kind, fields }
    }
}
