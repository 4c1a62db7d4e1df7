//! Scenes for refusal 16: 17 and 18 are written at, beside and beyond one
//! another.

use plain::frame::GOTO;
use plain::real::{self, level_as_real};
use plain::settings::*;

use crate::body::Body;
use crate::list::Generator;
use crate::timing::When;
use crate::values::{self, REAL_HUNDRED_PERCENT, REAL_ONE_PERCENT};

/// By how many units a REAL that is written lies away from the other value.
const AWAY: [f64; 14] = [
    0.0, 0.25, -0.25, 0.5, -0.5, 0.625, -0.75, 1.0, -1.0, 1.5, -1.25, -2.5, 700.5, -700.5,
];

impl Generator {
    /// 17 or 18 is written with the other one's unit and the units beside it, by
    /// every REAL that becomes such a unit.
    pub(crate) fn plan_value_beside_the_other(&mut self, output: u8) {
        let property = self
            .random
            .pick(&[BINARY_ACTIVE_VALUE, BINARY_INACTIVE_VALUE]);
        let other = match self.random.below(5) {
            // Where a REAL below one percent is raised to.
            0 => real::ONE_PERCENT,
            // Below 32 percent eight REALs or more become one unit.
            _ => self.random.between(65_537, 32 * 65_536) as u32,
        };
        match property {
            BINARY_ACTIVE_VALUE => self.plan_relay_values(output, real::HUNDRED_PERCENT, other),
            _ => self.plan_relay_values(output, other, 0),
        }
        // Neither value has anything to do with Min and Max.
        let maximum = self
            .random
            .pick(&[REAL_HUNDRED_PERCENT, 10.0_f32.to_bits()]);
        self.plan_setting(output, MAXIMUM, maximum);
        // Mostly active then, so that a write which is refused and still turns
        // the relay is seen.
        if self.random.chance(40) {
            self.plan_command(output, GOTO, &[REAL_HUNDRED_PERCENT, 0]);
        }
        for _ in 0..self.random.between(2, 4) {
            let away = self.random.pick(&AWAY);
            let beside = ((f64::from(other) + away) / 65_536.0) as f32;
            let value = match self.random.below(8) {
                0 => self
                    .random
                    .pick(&[0, REAL_ONE_PERCENT, REAL_HUNDRED_PERCENT]),
                1 => self.random.between(1, 0x3F7F_FFFF) as u32,
                2 => self.random.pick(&values::edge_reals()),
                _ => beside.to_bits(),
            };
            // A frame that is refused brings the panel to its time too.
            let later = When::After(self.random.between(1, 50));
            let when = self.random.pick(&[When::Now, later]);
            self.plan(output, Body::WriteProperty { property, value }, when);
            match self.random.below(4) {
                0 => self.plan_read(output, property, When::Late),
                _ => {
                    let read = self.random.pick(&[
                        property,
                        property,
                        BINARY_ACTIVE_VALUE,
                        BINARY_INACTIVE_VALUE,
                        PRESENT_VALUE,
                        BINARY_PRESENT_VALUE,
                    ]);
                    self.plan_read(output, read, When::Now);
                }
            }
        }
    }

    /// In a warning or in a movement.
    pub(crate) fn plan_relay_write(&mut self, output: u8) {
        let (property, value) = self.some_relay_write(output);
        let when = self.sometime();
        self.plan(output, Body::WriteProperty { property, value }, when);
        self.plan_look_at_relay(output, When::Now);
    }

    /// A write of 17, 18 or 19 with any value.
    pub(crate) fn some_relay_write(&mut self, output: u8) -> (u8, u32) {
        let property = self
            .random
            .pick(&[BINARY_ACTIVE_VALUE, BINARY_INACTIVE_VALUE, POLARITY]);
        let value = match property {
            POLARITY => self.any_bit(),
            _ => self.any_relay_value(output),
        };
        (property, value)
    }

    /// Often about the other one, or about what is shown.
    fn any_relay_value(&mut self, output: u8) -> u32 {
        let output = self.output(output);
        let settings = &output.settings;
        let near = [
            settings.binary_active_value,
            settings.binary_inactive_value,
            output.present_value(),
        ];
        match self.random.below(10) {
            0..=3 => level_as_real(self.random.pick(&near)),
            4 => level_as_real(self.random.pick(&near) + 1),
            5 => level_as_real(self.random.pick(&near).saturating_sub(1)),
            6 => self.random.pick(&values::edge_reals()),
            _ => values::level(&mut self.random),
        }
    }
}
