//! Scenes in blink warnings, whose turn and end move Present_Value too,
//! and which many things interrupt.

use events::words::COMMANDS;
use plain::frame::*;
use plain::real;
use plain::settings::*;

use crate::body::Body;
use crate::list::Generator;
use crate::suites::light::{STRONGEST, WEAKEST};
use crate::timing::When;
use crate::values::{ABSENT, REAL_HUNDRED_PERCENT, REAL_ONE_PERCENT, SHORTEST};

use super::judging::Aim;

/// A warning to come.
struct Blink {
    own: u8,
    dark: u32,
    lit: u32,
}

impl Generator {
    fn some_blink(&mut self) -> Blink {
        let dark = self.random.between(1, 200) as u32;
        let lit = self.random.between(1, 200) as u32;
        let (dark, lit) = self
            .random
            .pick(&[(dark, lit), (dark, lit), (0, lit), (dark, 0)]);
        Blink {
            own: self.random.between(7, 15) as u8,
            dark,
            lit,
        }
    }

    /// All but the write that starts it; Y is shown in its own slot.
    fn plan_before_blink(&mut self, output: u8, blink: &Blink, aim: Aim, level: u32) {
        self.plan_alone(output, blink.own);
        self.plan_blink_settings(output, blink.dark, blink.lit);
        self.plan_relay_values(output, aim.active, aim.inactive);
        let level = real::level_as_real(level.max(real::ONE_PERCENT));
        self.plan_shown(output, level, 0);
    }

    pub(crate) fn plan_relay_in_warning(&mut self, output: u8) {
        let mut aim = self.some_aim();
        let mut blink = self.some_blink();
        match self.random.below(11) {
            // The turn shows Y.
            0 | 1 => {
                blink.dark = blink.dark.max(1);
                blink.lit = blink.lit.max(1);
                self.plan_before_blink(output, &blink, aim, aim.level);
                self.plan_write(output, blink.own, 0);
                self.plan_look_at_relay(output, When::After(blink.dark.into()));
            }
            // The end shows what was written beneath in the meantime.
            2..=4 => {
                self.plan_before_blink(output, &blink, aim, aim.before);
                self.plan_write(output, blink.own, 0);
                self.plan_beneath(output, blink.own, aim);
                let end = blink.dark + blink.lit;
                self.plan_look_at_relay(output, When::After(end.into()));
                self.plan_property(output, RELINQUISH_DEFAULT, 0);
            }
            // Zero is at the inactive value, or below it.
            5 => {
                aim.inactive = self.random.pick(&[0, aim.inactive]);
                self.plan_before_blink(output, &blink, aim, aim.before);
                self.plan_write(output, blink.own, 0);
            }
            // With no dark time it stays as it is, between the values too.
            6 => {
                aim = aim.between();
                (blink.dark, blink.lit) = (0, blink.lit.max(1));
                self.plan_before_blink(output, &blink, aim, aim.before);
                self.plan_command(output, GOTO, &[aim.real(), ABSENT]);
                self.plan_write(output, blink.own, 0);
            }
            // What lies beneath is not shown before that which ends it.
            7 => {
                aim = aim.between();
                (blink.dark, blink.lit) = (0, blink.lit.max(1));
                self.plan_before_blink(output, &blink, aim, real::HUNDRED_PERCENT);
                self.plan_write(output, blink.own, 0);
                match self.random.chance(50) {
                    true => self.plan_write(output, blink.own, aim.real()),
                    false => self.plan_command(output, GOTO, &[aim.real(), ABSENT]),
                }
            }
            _ => {
                if self.random.chance(40) {
                    aim = aim.between();
                }
                let level = self.random.pick(&[aim.before, aim.before, aim.level]);
                self.plan_before_blink(output, &blink, aim, level);
                self.plan_write(output, blink.own, 0);
                if self.random.chance(70) {
                    self.plan_beneath(output, blink.own, aim);
                }
                // In the dark phase, or in the lit one.
                let gone = self.random.pick(&[0, blink.dark]);
                self.plan_look_at_relay(output, When::After(gone.into()));
                self.plan_interruption(output, &blink, aim);
                self.plan_look_at_relay(output, When::Now);
                self.plan_property(output, RELINQUISH_DEFAULT, 0);
                self.plan_property(output, MINIMUM, REAL_ONE_PERCENT);
                self.plan_property(output, MAXIMUM, REAL_HUNDRED_PERCENT);
            }
        }
    }

    /// The level to come to is Relinquish_Default, with no slot above it once
    /// slot 6 is empty.
    fn plan_beneath(&mut self, output: u8, own: u8, aim: Aim) {
        let level = self
            .random
            .pick(&[aim.real(), aim.real(), REAL_HUNDRED_PERCENT]);
        self.plan_property(output, RELINQUISH_DEFAULT, level);
        self.plan(output, Body::Empty { priority: own }, When::Now);
    }

    /// What ends the warning, or moves what is shown in it.
    fn plan_interruption(&mut self, output: u8, blink: &Blink, aim: Aim) {
        let priority = self.random.pick(&[STRONGEST, blink.own, WEAKEST]);
        let step = self
            .random
            .pick(&[REAL_ONE_PERCENT, 40.0_f32.to_bits(), REAL_HUNDRED_PERCENT]);
        let kind = match self.random.chance(60) {
            true => self.random.pick(&[STOP, RELINQUISH]),
            false => self.random.pick(&COMMANDS),
        };
        match self.random.below(12) {
            0..=2 => self.plan_write(output, priority, aim.real()),
            3 => {
                self.plan_write(output, priority, 0);
                self.plan_read(output, FIRST_SLOT + blink.own - 1, When::Now);
            }
            4 | 5 => {
                let property = self.random.pick(&[MINIMUM, MAXIMUM]);
                let other = self.random.pick(&[REAL_ONE_PERCENT, REAL_HUNDRED_PERCENT]);
                self.plan_property(output, property, other);
                self.plan_look_at_relay(output, When::Now);
                self.plan_property(output, property, aim.real());
            }
            6 | 7 => {
                // Whatever is lit becomes active by the second of these writes,
                // stays so, and becomes inactive by the last.
                for (property, value) in [
                    (BINARY_INACTIVE_VALUE, 0),
                    (BINARY_ACTIVE_VALUE, REAL_ONE_PERCENT),
                    (BINARY_ACTIVE_VALUE, REAL_HUNDRED_PERCENT),
                    (BINARY_INACTIVE_VALUE, 99.0_f32.to_bits()),
                ] {
                    self.plan_property(output, property, value);
                    if self.random.chance(30) {
                        self.plan_look_at_relay(output, When::Now);
                    }
                }
            }
            _ => {
                self.plan_command_priority(output, priority, When::Now);
                match kind {
                    STOP | RELINQUISH => self.plan_command(output, kind, &[ABSENT]),
                    STEP_UP | STEP_DOWN => {
                        self.plan_property(output, STEP_INCREMENT, step);
                        self.plan_command(output, kind, &[ABSENT]);
                    }
                    STEP_UP_BY | STEP_DOWN_BY => self.plan_command(output, kind, &[step, ABSENT]),
                    _ => self.plan_command_to_aim(output, aim),
                }
            }
        }
    }

    /// One clock goes over the warning's turn and end and over the end of a
    /// duration whose slot holds zero beneath: what turns the relay on the way
    /// may not be what is shown in the end.
    pub(crate) fn plan_turns_on_the_way(&mut self, output: u8) {
        let mut aim = self.some_aim();
        if self.random.chance(60) {
            aim = aim.between();
        }
        let blink = self.some_blink();
        let end = blink.dark + blink.lit;
        self.plan_before_blink(output, &blink, aim, aim.before);
        let after = self.random.between(0, 100) as u32;
        let due = self
            .random
            .pick(&[blink.dark, end, end + after, end + after]);
        // A duration has 100 ms at the least, so it begins before the warning.
        let wait = SHORTEST.saturating_sub(due);
        let with_duration = self.random.chance(70);
        if with_duration {
            let slot = self.random.pick(&[WEAKEST, WEAKEST, blink.own, STRONGEST]);
            self.plan_command_priority(output, slot, When::Now);
            match slot {
                WEAKEST => self.plan_command(output, GOTO, &[0, due + wait]),
                STRONGEST => self.plan_command(output, RELINQUISH, &[due + wait]),
                _ => self.plan_command(output, GOTO, &[aim.real_before(), due + wait]),
            }
        }
        let (priority, bits) = (blink.own, 0);
        let jump = if with_duration { wait } else { 0 };
        self.plan(
            output,
            Body::Write { priority, bits },
            When::After(jump.into()),
        );
        let beneath = self
            .random
            .pick(&[0, aim.real(), aim.real(), REAL_HUNDRED_PERCENT]);
        self.plan_property(output, RELINQUISH_DEFAULT, beneath);
        if self.random.chance(30) {
            self.plan(output, Body::Empty { priority }, When::Now);
        }
        let jump = self
            .random
            .pick(&[due, end + after, end + after, end + after + 100]);
        self.plan_clock(output, When::After(jump.into()));
        self.plan_look_at_relay(output, When::Now);
        self.plan_property(output, RELINQUISH_DEFAULT, 0);
    }
}
