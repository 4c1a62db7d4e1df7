//! Fields and settings at the edges of their ranges, beside them, and two out of
//! range at once.

use plain::frame::*;
use plain::real::level_as_real;
use plain::settings::*;

use crate::list::Generator;
use crate::timing::When;
use crate::values::{
    self, ABSENT, EDGE_TIMES, LONGEST, REAL_HUNDRED_PERCENT, REAL_ONE_PERCENT, SHORTEST,
};

/// Two edges and what lies just below and above them, in units or in REALs.
fn beside(edges: [u32; 2]) -> Vec<u32> {
    edges.map(|edge| [edge - 1, edge, edge + 1]).concat()
}

impl Generator {
    /// A fade time, a duration, a rate or a step at the edges of its range and
    /// beside them.
    pub(crate) fn plan_command_edge(&mut self, output: u8) {
        let edge = self.random.pick(&beside([SHORTEST, LONGEST]));
        let real = self.random.pick(&values::edge_reals());
        let level = values::good_level(&mut self.random);
        let duration = self.random.pick(&[edge, edge, ABSENT - 1]);
        match self.random.below(4) {
            0 => self.plan_command(output, FADE_TO_OVER, &[level, edge, ABSENT]),
            1 => self.plan_command(output, GOTO, &[level, duration]),
            2 => self.plan_command(output, RAMP_TO_AT_RATE, &[level, real, ABSENT]),
            _ => self.plan_command(output, STEP_UP_BY, &[real, ABSENT]),
        }
        // Else the output is under way for a day.
        self.plan_command(output, GOTO, &[level, 0]);
    }

    /// Two fields out of range at once: the one on the left refuses.
    pub(crate) fn plan_two_bad_fields(&mut self, output: u8) {
        let bad_real = self.random.pick(&[0xBF80_0000, 0x42C8_0001, 0x7FC0_0000]);
        let bad_time = self.random.pick(&[1, SHORTEST - 1, LONGEST + 1]);
        let bad_priority = self.random.pick(&values::BAD_PRIORITIES);
        match self.random.below(4) {
            0 => self.plan_write(output, bad_priority, bad_real),
            1 => self.plan_command(output, FADE_TO_OVER, &[bad_real, bad_time, ABSENT]),
            2 => self.plan_command(output, GOTO, &[bad_real, bad_time]),
            _ => self.plan_command(output, STEP_UP_BY, &[bad_real, bad_time]),
        }
    }

    /// A setting at the edges of its range and beside them, and back again.
    pub(crate) fn plan_property_edge(&mut self, output: u8) {
        let times = beside([SHORTEST, LONGEST]);
        // Of its range alone, or of all ranges and of the format.
        let of_all = self.random.chance(40);
        let reals = |edges| match of_all {
            true => values::edge_reals(),
            false => beside(edges),
        };
        let rates = reals([0.125_f32.to_bits(), REAL_HUNDRED_PERCENT]);
        let mut bounds = reals([REAL_ONE_PERCENT, REAL_HUNDRED_PERCENT]);
        bounds.push(0);
        let (property, edges) = self.random.pick(&[
            (FADE_TIME, &times[..]),
            (BLINK_TIME, &times),
            (BLINK_WARN_DELAY, &times),
            (RAMP_RATE, &rates),
            (STEP_INCREMENT, &rates),
            (MINIMUM, &bounds),
            (MAXIMUM, &bounds),
            (RELINQUISH_DEFAULT, &bounds),
            (BLINK_ENABLE, &EDGE_TIMES),
            (
                LIGHTING_COMMAND_PRIORITY,
                &[0, 1, 5, 6, 7, 16, 17, 257, 272],
            ),
            (ELAPSED_ACTIVE_TIME, &[0, 1]),
        ]);
        let settings = &self.output(output).settings;
        let before = match property {
            FADE_TIME => Some(settings.fade_time),
            MINIMUM => Some(level_as_real(settings.minimum)),
            MAXIMUM => Some(level_as_real(settings.maximum)),
            _ => None,
        };
        let edge = self.random.pick(edges);
        self.plan_property(output, property, edge);
        self.plan_read(output, property, When::Now);
        if let Some(before) = before {
            self.plan_property(output, property, before);
        }
    }
}
